# Ports, nodes, memories and instances share one table of names.
circuit c
input a 8
output y 8
memory a 16 8
assign y a
top c
