# A linear feedback shift register of n bits: where a one goes out at the low end, the bits of `taps` are turned. With the taps
# b8 a register of 8 bits goes through all 255 numbers but 0 before it meets the first again.
circuit lfsr n taps
input enable 1
output value n
wire next n
reg state next enable enable init 1
label state state
let shifted srl(state,1)
assign next mux2(lsb(state),xor(shifted,const(n,taps)),shifted)
assign value state
top lfsr 8 184

# Cycle 254 ends with 01, the number that it began with.
bench
set enable 1
cycle 256
set enable 0
cycle
end
