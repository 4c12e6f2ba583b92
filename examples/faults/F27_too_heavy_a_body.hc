# Each turn weighs 15: 4 constants, 3 adders of 3, the statement and the turn. A body weighs at most 262,144.
circuit c
output y 8
for i 0 32000
let x[i] add(add(8'h00,8'h01),add(8'h02,8'h03))
end
assign y x[0]
top c
