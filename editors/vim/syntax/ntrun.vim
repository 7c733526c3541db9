" Scripts, expectations and schedules of ntrun and ntlab.
if exists("b:current_syntax")
  finish
endif

syntax case match
" a word of a name has no other signs than these
setlocal iskeyword=@,48-57,_
setlocal commentstring=#\ %s

syntax keyword ntrunTodo contained TODO FIXME XXX
syntax match ntrunComment /#.*$/ contains=ntrunTodo,@Spell

" declarations
syntax match ntrunHeader /^\s*\%(version\|cpus\|depth\|threaded\)\>/
syntax match ntrunDeclaration /^\s*\%(isr\|dpc\|tdpc\|timer\|thread\|special\|normal\|user\|spinlock\)\>/
syntax match ntrunRoutine /^\s*\%(routine\|exit\)\>/

" commands, at the beginning of a line or behind the word call of an expectation
syntax match ntrunCommand /\%(^\s*\|\<call\s\+\)\@<=\%(raise\|lower\|queue\|unqueue\|importance\|target\|settimer\|canceltimer\)\>/
syntax match ntrunCommand /\%(^\s*\|\<call\s\+\)\@<=\%(apc\|unapc\|entercrit\|enterguard\|leavecrit\|leaveguard\|wait\|delay\)\>/
syntax match ntrunCommand /\%(^\s*\|\<call\s\+\)\@<=\%(release\|alert\|testalert\|interrupt\|clock\|touser\|yield\|acquire\)\>/
syntax match ntrunCommand /\%(^\s*\|\<call\s\+\)\@<=\%(unlock\|note\)\>/

" words of fields
syntax match ntrunOption /\s\@<=\%(on\|off\|own\|low\|medium\|mediumhigh\|high\|kernel\|plain\|alertable\)\>/
syntax match ntrunOption /\%(\<\%(wait\|delay\|testalert\|alert\s\+\w\+\)\s\+\)\@<=user\>/

" levels
syntax match ntrunLevel /\<\%(PASSIVE\|APC\|DISPATCH\|SYNCH\|CLOCK\|IPI\|HIGH\)\>/
syntax match ntrunLevel /\<DIRQL\s\+\%(1[01]\|[3-9]\)\>/

" numbers
syntax match ntrunNumber /\s\@<=\d\+\%(\s\|$\|#\)\@=/
syntax match ntrunNumber /\%(\<status\s\+\)\@<=\x\+\>/
syntax match ntrunNumber /\<\d\+=\d\+\>/
syntax match ntrunArrow /->/

" expectations
syntax match ntrunExpect /^\s*\%(expect\|never\|always\|done\)\>/ nextgroup=ntrunExpected skipwhite
syntax match ntrunExpected /.*$/ contained contains=ntrunComment,ntrunEvent,ntrunCommand,ntrunReply,ntrunLevel,ntrunNumber,ntrunArrow,ntrunOption
syntax keyword ntrunEvent contained note refused begin expire gone call waits blocked spins ends
syntax keyword ntrunEvent contained after before twice above on with int dpc apc thread timer
syntax match ntrunReply contained /\%(->\s*\)\@<=\%(yes\|no\|done\|blocked\|status\|refused\|spin\)\>/

" schedules
syntax match ntrunSchedule /^\s*\%(schedule\|next\|switch\|look\)\>/

highlight default link ntrunTodo Todo
highlight default link ntrunComment Comment
highlight default link ntrunHeader PreProc
highlight default link ntrunDeclaration Type
highlight default link ntrunRoutine Structure
highlight default link ntrunCommand Statement
highlight default link ntrunOption Constant
highlight default link ntrunLevel Special
highlight default link ntrunNumber Number
highlight default link ntrunArrow Operator
highlight default link ntrunExpect Keyword
highlight default link ntrunEvent Identifier
highlight default link ntrunReply Constant
highlight default link ntrunSchedule PreProc

let b:current_syntax = "ntrun"
