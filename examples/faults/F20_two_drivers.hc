# An output is driven once.
circuit c
input a 8
input b 8
output y 8
assign y a
assign y b
top c
