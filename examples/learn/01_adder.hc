# An adder of two numbers of 8 bits. The sum wraps: what does not fit in 8 bits is lost.
circuit add8        # a circuit, and below it its ports: a name and a width in bits
input a 8
input b 8
output s 8
assign s add(a,b)   # drives the output
top add8            # the circuit that is written and simulated

bench               # what the inputs are in the simulation, and when the clock ticks
set a 17
set b 25
cycle
set a 200
set b 8'hff
cycle
end
