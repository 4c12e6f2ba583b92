# Each operation by its name: ones, leading zeros, bits turned round, the lesser, the greater, a sum that stops at the top.
circuit operations
input a 8
input b 8
output ones 4
output zeros 4
output turned 8
output lesser 8
output greater 8
output sum 8
assign ones op.popcount(a)
assign zeros op.clz(a)
assign turned op.rev(a)
assign lesser op.min(a,b)
assign greater op.max(a,b)
assign sum op.satadd(a,b)
top operations
bench
set a 0
set b 255
cycle
set a 40
set b 216
cycle
set a 200
set b 54
cycle
end
