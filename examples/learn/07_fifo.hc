# A first-in first-out queue, with a count of the words in it. The depth is a power of two, so head and tail wrap by themselves
# and no address is past the end of the memory.
circuit fifo width depth
input push 1
input pop 1
input data width
output q width
output empty 1
output full 1

memory store depth width
wire head bits(depth-1)
wire tail bits(depth-1)
wire count bits(depth)

# What is asked for and can be done.
let takes and(pop,not(empty))
let puts and(push,not(full))

reg head_now add(head,const(bits(depth-1),1)) enable takes
reg tail_now add(tail,const(bits(depth-1),1)) enable puts
assign head head_now
assign tail tail_now

let more add(count,uresize(puts,bits(depth)))
reg count_now sub(more,uresize(takes,bits(depth)))
assign count count_now

write store puts tail data
assign q read(store,head)
assign empty eq(count,const(bits(depth),0))
assign full eq(count,const(bits(depth),depth))
top fifo 8 16

bench
set push 1
set data 8'h11
cycle
set data 8'h22
cycle
set data 8'h33
set pop 1
cycle
set push 0
cycle
cycle
cycle
set pop 0
set push 1
set data 8'h44
cycle 16
set pop 1
set data 8'h55
cycle
cycle
end
