circuit add8
input a 8
input b 8
output s 8
assign s add(a b)
top add8
