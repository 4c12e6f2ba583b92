# A UART receiver for a start bit (0), eight data bits, the lowest first, and a stop bit (1), each `period` clock cycles long.
# It looks at the line in the middle of each bit. `valid` is 1 for one cycle after a whole byte, `broken` after one without
# its stop bit.
circuit uart_receiver period
input line 1
output data 8
output valid 1
output broken 1

# Two registers, since the line comes from another clock.
reg first line init 1
reg seen first init 1

# The bits to come, the start bit included; and the time to the middle of the next one.
wire left_next 4
wire ticks_next bits(period-1)
reg left left_next
reg ticks ticks_next
label left bits_left

let idle eq(left,const(4,0))
let begins and(idle,not(seen))
let at_middle eq(ticks,const(bits(period-1),0))
let looks and(not(idle),at_middle)
let is_start eq(left,const(4,10))
let is_stop eq(left,const(4,1))

# A start bit that is gone by its middle was none.
let false_start and(looks,and(is_start,seen))
assign left_next mux2(begins,const(4,10),mux2(false_start,const(4,0),mux2(looks,sub(left,const(4,1)),left)))
assign ticks_next mux2(begins,const(bits(period-1),period/2-1),mux2(at_middle,const(bits(period-1),period-1),sub(ticks,const(bits(period-1),1))))

# The start bit goes in first, and out again behind eight data bits.
wire byte_next 8
reg byte byte_next enable and(looks,not(is_stop))
assign byte_next cat(seen,select(byte,7,1))
reg valid_now and(and(looks,is_stop),seen)
reg broken_now and(and(looks,is_stop),not(seen))
assign data byte
assign valid valid_now
assign broken broken_now
top uart_receiver 4

# A false start; then the letter K, 4b: 0, 1 1 0 1 0 0 1 0, 1; then eight zeros whose stop bit is 0.
bench
set line 1
cycle 2
set line 0
cycle
set line 1
cycle 4
set line 0
cycle 4
set line 1
cycle 8
set line 0
cycle 4
set line 1
cycle 4
set line 0
cycle 8
set line 1
cycle 4
set line 0
cycle 4
set line 1
cycle 8
set line 0
cycle 40
set line 1
cycle 4
end
