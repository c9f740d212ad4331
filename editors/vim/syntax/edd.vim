" EDDL device descriptions. Made by tools/editors from the tables of the sources.
if exists("b:current_syntax")
  finish
endif
syntax case match
syntax keyword eddItem MANUFACTURER DEVICE_TYPE DEVICE_REVISION DD_REVISION VARIABLE COMMAND MENU COLLECTION METHOD ARRAY OF
syntax keyword eddAttribute LABEL HELP CLASS HANDLING CONSTANT_UNIT VALIDITY TYPE NUMBER OPERATION TRANSACTION RESPONSE_CODES REQUEST REPLY ITEMS MEMBERS DEFINITION ELEMENTS DEFAULT_VALUE MIN_VALUE MAX_VALUE DISPLAY_FORMAT EDIT_FORMAT
syntax keyword eddCondition IF ELSE SELECT CASE DEFAULT
syntax keyword eddStatement if else while do for switch case default break continue return goto
syntax keyword eddLocal int long char short unsigned signed float double
syntax keyword eddType INTEGER UNSIGNED_INTEGER ENUMERATED BIT_ENUMERATED
syntax keyword eddConstant READ WRITE TRUE FALSE SUCCESS MISC_WARNING DATA_ENTRY_WARNING DATA_ENTRY_ERROR MODE_ERROR PROCESS_ERROR MISC_ERROR INFO INDEX DISPLAY_VALUE READ_ONLY HIDDEN REVIEW
syntax keyword eddFunction PUT_MESSAGE ACKNOWLEDGE DELAY GET_DEV_VAR_VALUE SELECT_FROM_LIST send_command send_command_trans save_values ivar_value lvar_value iassign lassign abort process_abort add_abort_method
syntax keyword eddTodo TODO FIXME XXX contained
syntax match eddNumber "\<\%(0[xX]\x\+\|\d\+\%(\.\d*\)\?\%([eE][-+]\?\d\+\)\?\)\>"
syntax match eddLanguage "|[a-z][a-z]\%( [a-z][a-z]\)\?|" contained
syntax match eddLanguage "|\d\d\d|" contained
syntax match eddEscape "\\." contained
syntax region eddString start=+"+ skip=+\\.+ end=+"+ contains=eddLanguage,eddEscape,@Spell
syntax match eddComment "//.*$" contains=eddTodo,@Spell
syntax region eddComment start="/\*" end="\*/" fold contains=eddTodo,@Spell
syntax match eddMark "^\s*#.*$"
syntax region eddBraces start="{" end="}" transparent fold
highlight default link eddItem Structure
highlight default link eddAttribute Keyword
highlight default link eddCondition Conditional
highlight default link eddStatement Statement
highlight default link eddLocal Type
highlight default link eddType Type
highlight default link eddConstant Constant
highlight default link eddFunction Function
highlight default link eddTodo Todo
highlight default link eddNumber Number
highlight default link eddLanguage Special
highlight default link eddEscape SpecialChar
highlight default link eddString String
highlight default link eddComment Comment
highlight default link eddMark PreProc
let b:current_syntax = "edd"
