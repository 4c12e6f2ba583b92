# Statements, loop lines and loop turns that run are at most 65,536.
circuit c
output y 8
for i 0 70000
end
assign y 8'h00
top c
