circuit t
input a 64
input b 65
output p 128
assign p mulu(a,b)
top t
