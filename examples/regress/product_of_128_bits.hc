circuit t
input a 64
input b 64
output p 128
assign p mulu(a,b)
top t
