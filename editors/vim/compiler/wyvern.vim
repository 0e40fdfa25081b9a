" :compiler wyvern, and then :make goes to the place of a refusal. All files of the folder are one program.
if exists("current_compiler")
  finish
endif
let current_compiler = "wyvern"
CompilerSet makeprg=wyvern\ check\ %:h:S/*.wy
CompilerSet errorformat=%f:%l:%c:\ %m,%-Gaccepted,%-Gauthority\ of\ %.%#
