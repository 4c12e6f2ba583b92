# A barrel shifter of n bits, a power of two: it moves a value left by an amount that is a signal. What goes out at the top comes
# in again at the bottom where `rotate` is 1, else zeros come in. Each stage looks at one bit of the amount, the lowest first,
# and hands on to a stage that moves twice as far.
circuit stage n distance amount_bits
input rotate 1
input amount amount_bits
input value n
output moved n
let fill mux2(rotate,select(value,n-1,n-distance),const(distance,0))
let here mux2(lsb(amount),cat(select(value,n-1-distance,0),fill),value)
if amount_bits == 1
  assign moved here
else
  inst next stage n (2*distance) (amount_bits-1) : rotate=rotate amount=select(amount,amount_bits-1,1) value=here
  assign moved next.moved
end

circuit barrel_shifter n
input rotate 1
input amount bits(n-1)
input value n
output moved n
inst stages stage n 1 bits(n-1) : rotate=rotate amount=amount value=value
assign moved stages.moved
top barrel_shifter 16
bench
set value 16'hc123
cycle
set amount 1
cycle
set amount 4
cycle
set amount 15
cycle
set rotate 1
set amount 1
cycle
set amount 4
cycle
set amount 11
cycle
set amount 15
cycle
end
