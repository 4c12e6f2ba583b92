circuit bad1
output y 8
assign y const(4,1)
circuit mid
output y 8
inst g bad1 :
assign y g.y
circuit bad2
output y 8
assign y const(8,300)
circuit t
output y 8
inst u mid :
inst v bad2 :
assign y add(u.y,v.y)
top t
