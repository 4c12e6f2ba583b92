# A memory whose size is no power of two: addresses 5 to 7 are past its end. A write there changes nothing in a simulation here
# and by the Verilog standard, but synthesis may cut the address and change a real word. So its enable is guarded.
circuit five_words width
input enable 1
input address 3
input data width
input read_address 3
output q width
memory words 5 width
label words words
let inside lt(address,3'h5)
write words and(enable,inside) address data
assign q read(words,read_address)       # a read past the end gives 0, and is written so in the Verilog
top five_words 8

bench
set enable 1
set address 4
set data 8'h44
set read_address 4
cycle
set address 6
set data 8'h66
set read_address 6
cycle
set read_address 4
cycle
end
