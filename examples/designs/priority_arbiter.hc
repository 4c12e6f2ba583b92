# A priority arbiter: of n requests the one with the lowest number is granted. `any` is 1 where there is a request, and
# `number` is then its number.
circuit priority_arbiter n
input request n
output grant n
output any 1
output number bits(n-1)

# free[i]: no request below i. granted[i] and number_of[i]: the grants and the number for the first i requests.
let free[0] const(1,1)
for i 0 n
  let wins[i] and(select(request,i,i),free[i])
  let free[i+1] and(free[i],not(select(request,i,i)))
end
let granted[1] wins[0]
let number_of[1] const(bits(n-1),0)
for i 1 n
  let granted[i+1] cat(wins[i],granted[i])
  let number_of[i+1] mux2(wins[i],const(bits(n-1),i),number_of[i])
end
assign grant granted[n]
assign any not(free[n])
assign number number_of[n]
top priority_arbiter 6
bench
cycle
set request 6'b100000
cycle
set request 6'b101000
cycle
set request 6'b111110
cycle
set request 6'b111111
cycle
set request 6'b010100
cycle
end
