" Vim indent of Carol: two columns for what stands in a part or in braces.
if exists("b:did_indent")
  finish
endif
let b:did_indent = 1

setlocal indentexpr=CarolIndent()
setlocal indentkeys=0},!^F,o,O,e,=end

if exists("*CarolIndent")
  finish
endif

function CarolIndent()
  let before = prevnonblank(v:lnum - 1)
  if before == 0
    return 0
  endif
  let last = substitute(getline(before), '#.*$', '', '')
  let deep = indent(before)
  if last =~ '{\s*$' || last =~ '^\s*\(program\|scene\|script\)\s*$'
    let deep += 2
  endif
  if getline(v:lnum) =~ '^\s*}' || getline(v:lnum) =~ '^\s*end\>'
    let deep -= 2
  endif
  return deep < 0 ? 0 : deep
endfunction
