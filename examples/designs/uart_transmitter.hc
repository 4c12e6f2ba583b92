# A UART transmitter: a start bit (0), eight data bits, the lowest first, and a stop bit (1), each for `period` clock cycles.
# `start` is taken while it is not busy. The line rests at 1.
circuit uart_transmitter period
input start 1
input data 8
output line 1
output busy 1

# The bits to send, the one on the line lowest; ones come in behind them. How many are left, and the time within a bit.
wire frame_next 10
wire left_next 4
wire ticks_next bits(period-1)
reg frame frame_next init (-1)
reg left left_next
reg ticks ticks_next
label frame frame
label left bits_left
label ticks ticks

let sends ne(left,const(4,0))
let loads and(start,not(sends))
let bit_ends eq(ticks,const(bits(period-1),period-1))
let shifts and(sends,bit_ends)
assign frame_next mux2(loads,cat(1'b1,data,1'b0),mux2(shifts,cat(1'b1,select(frame,9,1)),frame))
assign left_next mux2(loads,const(4,10),mux2(shifts,sub(left,const(4,1)),left))
assign ticks_next mux2(or(loads,bit_ends),const(bits(period-1),0),add(ticks,const(bits(period-1),1)))
assign line lsb(frame)
assign busy sends
top uart_transmitter 3

# The letter K is 4b: on the line 0, then 1 1 0 1 0 0 1 0, then 1.
bench
cycle 2
set start 1
set data 8'h4b
cycle
set data 0
cycle 5
set start 0
cycle 27
end
