# One input of an instance, connected twice.
circuit half
input x 8
output y 8
assign y srl(x,1)
circuit c
output y 8
inst u half : x=8'h10 x=8'h20
assign y u.y
top c
