# How many bits of x are one: a tree of adders that halves its input until one bit is left. A circuit may have instances of
# itself, with other numbers: `if` looks at numbers, before hardware is built.
circuit ones n
input x n
output c bits(n)
if n == 1
  assign c x
else
  inst low ones (n/2) : x=select(x,n/2-1,0)
  inst high ones (n-n/2) : x=select(x,n-1,n/2)
  assign c add(uresize(low.c,bits(n)),uresize(high.c,bits(n)))
end
top ones 16

bench
set x 16'h8001
cycle
set x -1
cycle
end
