circuit f n
output y n
assign y const(n,1)
circuit t
output c 8
inst q f 4 :
inst r f 8 :
assign c r.y
top t
