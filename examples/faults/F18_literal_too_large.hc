circuit add8
input a 8
input b 8
output s 8
assign s 8'h1ff
top add8
