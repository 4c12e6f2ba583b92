circuit t
input s 2
input a 4
output y 4
assign y mux(s,a,const(4,2),const(4,9))
top t
bench
set z 1
set a 5
cycle
end
