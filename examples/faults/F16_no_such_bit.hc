# Bits of 8 are numbered 7 to 0.
circuit c
input a 8
output y 9
assign y select(a,8,0)
top c
