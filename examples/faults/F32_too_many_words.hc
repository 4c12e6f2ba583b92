# A design has at most 4,194,304 words of memory: 64 times the largest one.
circuit store
output y 8
memory m 65536 8
assign y read(m,16'h0000)
circuit c
output y 8
for i 0 65
inst u[i] store :
end
assign y u[0].y
top c
