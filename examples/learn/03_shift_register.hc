# A shift register of n bits: a bit comes in at the low end while it shifts, or all bits are loaded at once.
circuit shift_register n
input load 1
input shift 1
input data n
input bit 1
output q n
output out 1
wire bits_next n
reg state bits_next enable or(load,shift) init 1    # it starts at 1
# mux2(s,a,b) is a where s is 1; cat puts its first part highest; select takes bits n-2 down to 0
assign bits_next mux2(load,data,cat(select(state,n-2,0),bit))
assign q state
assign out msb(state)                               # the highest bit
top shift_register 8

bench
cycle
set shift 1
cycle 3
set bit 1
cycle 2
set load 1
set data 8'ha5
cycle
set load 0
set bit 0
cycle 4
reset
cycle
end
