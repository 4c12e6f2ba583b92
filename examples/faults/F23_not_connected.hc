# Each input of an instance is connected.
circuit half
input x 8
output y 8
assign y srl(x,1)
circuit c
output y 8
inst u half :
assign y u.y
top c
