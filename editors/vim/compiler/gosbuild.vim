" :make builds the build file with gos, and lists where its fault stands, by gos-where. What else goes wrong is listed without a place.
if exists("current_compiler")
  finish
endif
let current_compiler = "gosbuild"

if exists(":CompilerSet") != 2
  command -nargs=* CompilerSet setlocal <args>
endif
CompilerSet makeprg=(gos\ build\ %:S\ \\\|\ gos-where\ -)
CompilerSet errorformat=%E%f:%l:%c:\ %m,%C%.%#,%-Gok\ %.%#,%-Ggos:\ not\ proved\ %.%#,%m
