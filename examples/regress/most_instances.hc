circuit leaf
output y 1
assign y const(1,0)
circuit mid k
output y 1
for i 0 k
inst u[i] leaf :
end
assign y u[0].y
circuit t
output y 1
for i 0 255
inst u[i] mid 256 :
end
assign y u[0].y
top t
