" The script of faultmem (docs/SCRIPT.md).
if exists("b:current_syntax")
  finish
endif
syntax case match

" A line whose first word begins with # is skipped.
syntax match faultmemComment "^\s*#.*$"

syntax match faultmemConfiguration "^\s*\%(config\|memory\|blocks\|flash\|event\|did\)\ze\%(\s\|$\)"
syntax match faultmemStep "^\s*\%(pass\|fail\|prepass\|prefail\|show\|cycle\|tick\|sig\|enable\|t\|save\|post\|urge\|drain\|get\|ask\)\ze\%(\s\|$\)"
syntax match faultmemArm "^\s*\%(cut\|fault\|mute\)\ze\%(\s\|$\)"
syntax match faultmemBlock "^\s*\%(power\|par\|lane\|end\)\ze\s*$"

" The pairs of an event line, and the patterns of a cut or a fault.
syntax match faultmemPair "\s\zs\%(dtc\|prio\|cycle\|confirm\|heal\|age\|lamp\|needs\|count\|jumpup\|jumpdown\|time\)\ze\s"
syntax match faultmemPattern "\s\zs\%(none\|all\|tail\|odd\)\ze\s*$"

" Decimal numbers, and hexadecimal digits: a byte, a data identifier, a DTC.
syntax match faultmemNumber "\s\zs-\=\d\{1,10}\ze\%(\s\|$\)"
syntax match faultmemHexadecimal "\%(^\s*did\s\+\d\+\s\+\)\@<=\x\{4}\ze\s*$"
syntax match faultmemHexadecimal "\%(\sdtc\s\+\)\@<=\x\{6}\ze\%(\s\|$\)"
syntax match faultmemBytes "\%(^\s*t\s\+[ABCD]\s\+\)\@<=\x\x\%(\s\+\x\x\)*"
syntax match faultmemBytes "\%(^\s*\%(post\|urge\)\s\+\d\+\s\+\)\@<=\x\x\%(\s\+\x\x\)*"

highlight default link faultmemComment Comment
highlight default link faultmemConfiguration Type
highlight default link faultmemStep Statement
highlight default link faultmemArm Exception
highlight default link faultmemBlock PreProc
highlight default link faultmemPair Identifier
highlight default link faultmemPattern Constant
highlight default link faultmemNumber Number
highlight default link faultmemHexadecimal Number
highlight default link faultmemBytes String

let b:current_syntax = "faultmem"
