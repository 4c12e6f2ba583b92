# A register file with two read ports and one write port. Register 0 reads as 0, and a write shows at once on a read port
# of the same register.
circuit read_port width count
input address bits(count-1)     # bits(7) is 3: the bits that hold the numbers up to 7
input stored width
input writes 1
input target bits(count-1)
input data width
output value width
let bypassed mux2(and(writes,eq(address,target)),data,stored)
assign value mux2(eq(address,const(bits(count-1),0)),const(width,0),bypassed)

circuit register_file width count
input write_enable 1
input write_address bits(count-1)
input write_data width
input address_a bits(count-1)
input address_b bits(count-1)
output value_a width
output value_b width
# A memory of so many words of a width. It is written at the clock edge where the enable is 1, and read at any time.
memory registers count width
write registers write_enable write_address write_data
inst a read_port width count : address=address_a stored=read(registers,address_a) writes=write_enable target=write_address data=write_data
inst b read_port width count : address=address_b stored=read(registers,address_b) writes=write_enable target=write_address data=write_data
assign value_a a.value
assign value_b b.value
top register_file 16 8

bench
set write_enable 1
set write_address 3
set write_data 16'hbeef
set address_a 3
set address_b 5
cycle
set write_address 5
set write_data 16'h1234
cycle
set write_enable 0
set write_data 7
cycle
set write_enable 1
set write_address 0
set address_a 0
cycle
set write_enable 0
set address_b 3
cycle
end
