# A letter of another alphabet, in a comment: café
circuit c
output y 8
assign y 8'h00
top c
