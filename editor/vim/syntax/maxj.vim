" Vim syntax of stream kernels and managers, as maxjc reads them (docs/LANGUAGE.md).
if exists("b:current_syntax")
  finish
endif

syntax keyword maxjControl if else while for return
syntax keyword maxjImport package import
syntax keyword maxjModifier static public private protected final extends class
syntax keyword maxjType void int boolean String DFEVar DFEType CounterChain KernelBlock DFELink
syntax keyword maxjType KernelParameters EngineParameters Kernel CustomManager
syntax keyword maxjOperatorWord new
syntax keyword maxjBoolean true false
syntax keyword maxjSelf this super

" These words of Java are in no source.
syntax keyword maxjForeign break continue do switch case default try catch finally throw throws
syntax keyword maxjForeign interface enum implements abstract synchronized instanceof double float
syntax keyword maxjForeign long byte short char null volatile native assert goto

syntax match maxjTypeCall "\<\%(dfeUInt\|dfeInt\|dfeFix\|dfeBool\)\ze\s*("
syntax match maxjCall "\<io\.\%(input\|output\|scalarInput\)\ze\s*("
syntax match maxjCall "\<constant\.var\ze\s*("
syntax match maxjCall "\<stream\.offset\ze\s*("
syntax match maxjCall "\<control\.\%(mux\|count\.simpleCounter\|count\.makeCounterChain\)\ze\s*("
syntax match maxjCall "\<Reductions\.streamHold\ze\s*("
syntax match maxjCall "\<optimization\.\%(pushRoundingMode\|popRoundingMode\)\ze\s*("
syntax match maxjCall "\.\@<=\%(newInstance\|cast\|addCounter\|getInput\|getOutput\)\ze\s*("
syntax match maxjCall "\<\%(addKernel\|makeKernelParameters\|addStreamFromCPU\|addStreamToCPU\)\ze\s*("
syntax match maxjConstant "\<SignMode\.\%(TWOSCOMPLEMENT\|UNSIGNED\)\>"
syntax match maxjConstant "\<RoundingMode\.\%(TRUNCATE\|TONEAREVEN\|TONEAR\)\>"

syntax match maxjNumber "\<\%(0\|[1-9]\d*\)[Ll]\?\>"
syntax match maxjNumber "\<0x\x\+[Ll]\?\>"
syntax match maxjNumber "\<\d\+\.\d\+\>"
syntax match maxjString "\"[ !#-\[\]-~]*\""
syntax match maxjConnect "<=="

syntax keyword maxjTodo contained TODO FIXME
syntax match maxjComment "//.*$" contains=maxjTodo,@Spell
syntax region maxjComment start="/\*" end="\*/" contains=maxjTodo,@Spell

highlight default link maxjControl Statement
highlight default link maxjImport Include
highlight default link maxjModifier StorageClass
highlight default link maxjType Type
highlight default link maxjTypeCall Type
highlight default link maxjOperatorWord Operator
highlight default link maxjBoolean Boolean
highlight default link maxjSelf Identifier
highlight default link maxjForeign Error
highlight default link maxjCall Function
highlight default link maxjConstant Constant
highlight default link maxjNumber Number
highlight default link maxjString String
highlight default link maxjConnect Operator
highlight default link maxjTodo Todo
highlight default link maxjComment Comment

let b:current_syntax = "maxj"
