# A name that is made only below the line that uses it.
circuit c
input a 8
output y 8
assign y add(a,b)
let b not(a)
top c
