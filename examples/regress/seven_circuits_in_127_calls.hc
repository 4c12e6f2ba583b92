# A tree of 127 calls in which each level halves its parameter: seven different circuits.
circuit tree n
input a 16
output s 16
if n==1
  assign s a
else
  inst p tree (n/2) : a=a
  inst q tree (n-n/2) : a=a
  assign s add(p.s,q.s)
end
top tree 64
bench
set a 3
cycle
end
