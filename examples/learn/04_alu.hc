# A small arithmetic unit of n bits with a zero flag and a carry, and an accumulator that holds the result.
# Operations: 0 add, 1 subtract, 2 and, 3 or, 4 exclusive or, 5 less than with signs, 6 shift left by one, 7 pass b.
circuit alu n
input operation 3
input a n
input b n
output result n
output zero 1
output carry 1
# One bit more than the operands, so that the carry is there: uresize fills with zeros.
let sum add(uresize(a,n+1),uresize(b,n+1))
let difference sub(uresize(a,n+1),uresize(b,n+1))
# A multiplexer: the selector, and a case for each of its numbers. All cases have one width.
let wide mux(operation,sum,difference,uresize(and(a,b),n+1),uresize(or(a,b),n+1),uresize(xor(a,b),n+1),uresize(lts(a,b),n+1),uresize(sll(a,1),n+1),uresize(b,n+1))
assign result select(wide,n-1,0)
assign zero eq(result,const(n,0))       # an output may be read
assign carry msb(wide)

circuit accumulator n
input operation 3
input b n
input enable 1
output value n
output zero 1
output carry 1
wire kept n
# An instance: its name, its circuit, the circuit's numbers, and a signal for each input. unit.result is an output of it.
inst unit alu n : operation=operation a=kept b=b
reg value_now unit.result enable enable
assign kept value_now
assign value value_now
assign zero unit.zero
assign carry unit.carry
top accumulator 8

bench
set enable 1
set operation 7
set b 100
cycle
set operation 0
set b 200
cycle
set operation 1
set b 45
cycle
set operation 5
set b -1
cycle
set operation 3
set b 8'h3c
cycle
set operation 2
set b 8'h0f
cycle
set operation 4
set b 8'hff
cycle
set operation 6
cycle
set enable 0
cycle
end
