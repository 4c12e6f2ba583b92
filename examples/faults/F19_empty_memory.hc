# A memory has 1 to 65,536 words.
circuit c
input a 4
output y 8
memory m 0 8
assign y read(m,a)
top c
