# A counter of n bits with an enable and a synchronous clear, which comes first. n is a parameter: a number that each use of the
# circuit gives, here the `top` line.
circuit counter n
input enable 1
input clear 1
output count n
output last 1

# A register reads a signal that is made from the register itself. A wire is how a signal is used before it is driven.
wire next n
reg now next enable enable clear clear 0    # it starts at 0, since no `init` is given
label now count_now                         # its name in the Verilog: only labels and ports keep names there
assign next add(now,const(n,1))             # const(width,number)

assign count now
assign last eq(now,const(n,-1))             # -1 has all bits 1
top counter 3

bench
cycle               # inputs are 0 until they are set
set enable 1
cycle 8
set clear 1
cycle
set clear 0
cycle 2
set enable 0
cycle
reset               # each register goes to its first value
cycle
end
