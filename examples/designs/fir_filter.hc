# A filter of four taps over samples with signs. Each tap multiplies the sample that comes in and adds what the tap behind it
# kept at the sample before, so one product and one sum lie between two registers.
circuit tap coefficient
input sample 8
input behind 18
output sum 18
assign sum add(sresize(muls(sample,const(8,coefficient)),18),behind)

circuit fir_filter c0 c1 c2 c3
input valid 1
input sample 8
output filtered 18
inst tap[3] tap c3 : sample=sample behind=const(18,0)
reg kept[3] tap[3].sum enable valid
inst tap[2] tap c2 : sample=sample behind=kept[3]
reg kept[2] tap[2].sum enable valid
inst tap[1] tap c1 : sample=sample behind=kept[2]
reg kept[1] tap[1].sum enable valid
inst tap[0] tap c0 : sample=sample behind=kept[1]
reg kept[0] tap[0].sum enable valid
assign filtered kept[0]
top fir_filter 3 (-5) 4 2

# A single 1 gives the coefficients one after another: 3, -5, 4, 2. A step of 10 gives 10 times their sums: 30, -20, 20, 40.
# While `valid` is 0 nothing moves. The lowest sample, -128, gives 128 times less of them.
bench
set valid 1
set sample 1
cycle
set sample 0
cycle 4
set sample 10
cycle 5
set valid 0
set sample 99
cycle 2
set valid 1
set sample 0
cycle 4
set sample -128
cycle
set sample 0
cycle 4
end
