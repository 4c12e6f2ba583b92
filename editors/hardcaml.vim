" Vim syntax for design texts of hardcaml.
if exists("b:current_syntax")
  finish
endif

syn keyword hardcamlCircuit circuit input output top bench
syn keyword hardcamlStatement let wire assign label reg memory write inst
syn keyword hardcamlPart enable clear init
syn keyword hardcamlBlock for if else end
syn keyword hardcamlStep set cycle reset
syn keyword hardcamlCall const add sub mulu muls and or xor eq lt not mux cat select read op bits ne gt le ge lts
syn keyword hardcamlCall mux2 uresize sresize sll srl sra repeat msb lsb
syn match hardcamlNumber "\<\d\+\>"
syn match hardcamlNumber "\<\d\+\s*'\s*h\s*\x\+\>"
syn match hardcamlNumber "\<\d\+\s*'\s*b\s*[01]\+\>"
syn match hardcamlOperator "[-+*/%:.]\|[<>=!]=\|[<>=]"
syn match hardcamlComment "#.*$" contains=hardcamlTodo
syn keyword hardcamlTodo TODO FIXME contained

hi def link hardcamlCircuit Structure
hi def link hardcamlStatement Statement
hi def link hardcamlPart Keyword
hi def link hardcamlBlock Conditional
hi def link hardcamlStep Keyword
hi def link hardcamlCall Function
hi def link hardcamlNumber Number
hi def link hardcamlOperator Operator
hi def link hardcamlComment Comment
hi def link hardcamlTodo Todo

let b:current_syntax = "hardcaml"
