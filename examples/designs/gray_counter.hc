# A counter in Gray code: from one number to the next a single bit changes, also from the last to the first. `binary` is the
# Gray code turned back.
circuit to_gray n
input binary n
output gray n
assign gray xor(binary,srl(binary,1))

circuit from_gray n
input gray n
output binary n
# Bit i is the sum of all bits of the code from i up, without carries.
let bit[n-1] msb(gray)
let high[n-1] bit[n-1]
for i 1 n
  let bit[n-1-i] xor(bit[n-i],select(gray,n-1-i,n-1-i))
  let high[n-1-i] cat(high[n-i],bit[n-1-i])
end
assign binary high[0]

circuit gray_counter n
input enable 1
output gray n
output binary n
# The code has a register of its own, so that no bit of it flickers.
wire count_next n
reg count count_next enable enable init 1
assign count_next add(count,const(n,1))
inst coder to_gray n : binary=count
reg gray_now coder.gray enable enable
label gray_now gray_code
inst decoder from_gray n : gray=gray_now
assign gray gray_now
assign binary decoder.binary
top gray_counter 4
bench
set enable 1
cycle 10
set enable 0
cycle 2
set enable 1
cycle 7
end
