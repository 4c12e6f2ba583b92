# The instance has an output y, and no z.
circuit half
input x 8
output y 8
assign y srl(x,1)
circuit c
output y 8
inst u half : x=8'h10
assign y u.z
top c
