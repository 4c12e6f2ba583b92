# An instance whose two paths cross: no combinational loop goes through it.
circuit c
input i 1
input j 1
output o 1
output p 1
assign o not(i)
assign p not(j)
circuit t
input x 1
output y 1
wire w 1
inst u c : i=x j=w
assign w u.o
assign y u.p
top t
bench
set x 1
cycle
end
