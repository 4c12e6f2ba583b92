circuit d n
output y 1
if n>1
inst u d (n-1) :
assign y u.y
else
assign y const(1,1)
end
top d 65
