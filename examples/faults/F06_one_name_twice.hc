# Two circuits of one name.
circuit c
output y 8
assign y 8'h01
circuit c
output y 8
assign y 8'h02
top c
