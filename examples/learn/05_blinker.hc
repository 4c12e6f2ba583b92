# Three lamps that blink at different speeds: one counter circuit at two widths. The Verilog has one module for each
# different circuit, so the two equal lamps share theirs.
circuit counter n
input enable 1
output wraps 1
wire now n
reg next_now add(now,const(n,1)) enable enable
assign now next_now
label next_now count
assign wraps and(enable,eq(now,const(n,-1)))

circuit lamp n
input tick 1
output lit 1
inst every counter n : enable=tick
wire on 1
reg on_now not(on) enable every.wraps
assign on on_now
assign lit on

circuit blinker
input tick 1
output red 1
output green 1
output blue 1
inst r lamp 3 : tick=tick
inst g lamp 4 : tick=tick
inst b lamp 4 : tick=tick
assign red r.lit
assign green g.lit
assign blue b.lit
top blinker

bench
set tick 1
cycle 18
end
