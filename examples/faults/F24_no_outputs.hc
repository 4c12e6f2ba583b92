# A circuit without outputs does nothing.
circuit c
input a 8
let b not(a)
top c
