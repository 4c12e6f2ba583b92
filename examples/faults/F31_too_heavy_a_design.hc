# A `heavy` weighs 90,004: 3 for each turn and 4 more. With 47 of them the sum is past 4,194,304.
circuit heavy
output y 8
for i 0 30000
let x[i] const(8,1)
end
assign y x[0]
circuit c
output y 8
for i 0 60
inst u[i] heavy :
end
assign y u[0].y
top c
