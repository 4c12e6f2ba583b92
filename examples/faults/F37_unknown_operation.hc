circuit t
input x 8
output y 4
assign y op.nope(x)
top t
