circuit k
output y 4
memory m 2 4
assign y read(m,const(1,0))
label m store
circuit t
input x 4
output y 8
inst u k :
label u core
assign y cat(select(x,3,0),u.y)
top t
