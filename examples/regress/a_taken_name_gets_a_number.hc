circuit f_0
output y 3
assign y const(3,5)
circuit f n
output y n
assign y const(n,1)
circuit t
output a 3
output b 4
output c 8
inst p f_0 :
inst q f 4 :
inst r f 8 :
assign a p.y
assign b q.y
assign c r.y
top t
