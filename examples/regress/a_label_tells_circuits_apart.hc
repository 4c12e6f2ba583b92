circuit a
input x 1
input z 1
output y 1
let p and(x,z)
let q or(x,z)
assign y xor(p,q)
circuit b
input x 1
input z 1
output y 1
let d not(x)
let q or(x,z)
let p and(x,z)
assign y xor(p,q)
label p sum
circuit t
input x 1
output y 1
inst u a : x=x z=x
inst v b : x=x z=x
assign y xor(u.y,v.y)
top t
