# The circuit has a parameter, and the instance gives it no number.
circuit one n
output y n
assign y const(n,1)
circuit c
output y 8
inst u one :
assign y u.y
top c
