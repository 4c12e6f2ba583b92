# A processor with an accumulator of 8 bits, 16 words of program and 16 words of data. Each instruction takes one clock cycle:
# the high four bits say what, the low eight are a number or an address.
#
#   0 halt        1 load the number    2 load a word    3 store to a word
#   4 add a word  5 subtract a word    6 jump           7 jump where the accumulator is not 0
#
# The bench writes the program into its memory while `load` is 1, and then lets it run. `result` is data word 0.
circuit processor
input load 1
input load_address 4
input load_word 12
input run 1
output counter 4
output accumulator 8
output halted 1
output result 8

memory program 16 12
memory data 16 8
label program instructions
label data data
write program load load_address load_word

wire counter_next 4
wire accumulator_next 8
wire halted_next 1
reg at counter_next
reg held accumulator_next
reg stopped halted_next
label at at
label held held
label stopped stopped

# The instruction, and the word that it speaks of.
let instruction read(program,at)
let code select(instruction,11,8)
let number select(instruction,7,0)
let address select(instruction,3,0)
let word read(data,address)
let goes and(run,not(stopped))

# What the accumulator is after each of the codes; a code above 7 leaves it alone.
let after mux(code,held,number,word,held,add(held,word),sub(held,word),held)
assign accumulator_next mux2(goes,after,held)
let jumps or(eq(code,4'h6),and(eq(code,4'h7),ne(held,8'h00)))
let halts and(goes,eq(code,4'h0))
assign counter_next mux2(and(goes,not(halts)),mux2(jumps,address,add(at,4'h1)),at)
assign halted_next or(stopped,halts)
write data and(goes,eq(code,4'h3)) address held

assign counter at
assign accumulator held
assign halted stopped
assign result read(data,4'h0)
top processor

# 7 times 6 by sums: `result` is 2a in the end.
bench
set load 1
set load_address 0
set load_word 12'h106    # data 2 is 6
cycle
set load_address 1
set load_word 12'h302
cycle
set load_address 2
set load_word 12'h101    # data 3 is 1
cycle
set load_address 3
set load_word 12'h303
cycle
set load_address 4
set load_word 12'h107    # data 1 is 7, how often is left
cycle
set load_address 5
set load_word 12'h301
cycle
set load_address 6
set load_word 12'h100    # data 0 is 0, the sum
cycle
set load_address 7
set load_word 12'h300
cycle
set load_address 8
set load_word 12'h200    # 8: the sum is 6 more
cycle
set load_address 9
set load_word 12'h402
cycle
set load_address 10
set load_word 12'h300
cycle
set load_address 11
set load_word 12'h201    # one time less is left
cycle
set load_address 12
set load_word 12'h503
cycle
set load_address 13
set load_word 12'h301
cycle
set load_address 14
set load_word 12'h708    # back to 8 until none is left
cycle
set load_address 15
set load_word 12'h000    # halt
cycle
set load 0
set run 1
cycle 60
end
