" :make checks the source with gos, and lists where its fault stands, by gos-where. What else goes wrong is listed without a place.
if exists("current_compiler")
  finish
endif
let current_compiler = "gos"

if exists(":CompilerSet") != 2
  command -nargs=* CompilerSet setlocal <args>
endif
CompilerSet makeprg=(gos\ check\ %:S\ \\\|\ gos-where\ -)
CompilerSet errorformat=%E%f:%l:%c:\ %m,%C%.%#,%-Gok\ %.%#,%-Ggos:\ not\ proved\ %.%#,%m
