circuit wire
input a 8
input b 8
output s 8
assign s add(a,b)
top wire
