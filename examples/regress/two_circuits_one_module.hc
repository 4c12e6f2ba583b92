circuit a
input x 1
output y 1
assign y not(x)
circuit b
input x 1
output y 1
assign y not(x)
circuit t
input x 1
output y 1
inst u a : x=x
inst v b : x=u.y
assign y v.y
top t
