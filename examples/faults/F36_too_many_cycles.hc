circuit t
output q 8
wire n 8
reg r n init 5
assign n add(r,const(8,1))
assign q r
top t
bench
cycle 1000001
end
