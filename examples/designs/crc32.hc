# The CRC-32 of Ethernet, zip and PNG, a byte in each clock cycle: the polynomial 04c11db7 with its bits turned round, edb88320,
# from all ones, with all bits turned at the end.
circuit crc_byte
input before 32
input data 8
output after 32
let crc[0] xor(before,uresize(data,32))
for i 0 8
  let crc[i+1] mux2(lsb(crc[i]),xor(srl(crc[i],1),32'hedb88320),srl(crc[i],1))
end
assign after crc[8]

circuit crc32
input restart 1
input valid 1
input data 8
output crc 32
wire next 32
reg state next enable valid clear restart (-1) init (-1)
label state state
inst byte crc_byte : before=state data=data
assign next byte.after
assign crc not(state)
top crc32

# The digits 1 to 9 in ASCII: the check value of this CRC is cbf43926. Then a restart, and a single byte 0, which gives d202ef8d.
bench
set valid 1
set data 8'h31
cycle
set data 8'h32
cycle
set data 8'h33
cycle
set data 8'h34
cycle
set data 8'h35
cycle
set data 8'h36
cycle
set data 8'h37
cycle
set data 8'h38
cycle
set data 8'h39
cycle
set valid 0
cycle
set restart 1
cycle
set restart 0
set valid 1
set data 0
cycle
end
