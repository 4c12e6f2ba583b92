# The innermost open block counts: the `if`, and not the `for`.
circuit c
output y 8
for i 0 1
if i == 0
assign y 8'h00
