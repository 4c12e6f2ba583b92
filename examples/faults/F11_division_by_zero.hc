# A number divided by 0, before any hardware is there.
circuit c n
output y 8
assign y const(8,100/(n-1))
top c 1
