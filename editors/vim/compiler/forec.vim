" `:make` runs `forec lint` on the file, and the cursor goes to the first place. It is `forec check` as well, so limits are judged, too.
if exists("current_compiler")
  finish
endif
let current_compiler = "forec"

CompilerSet makeprg=forec\ lint\ --check\ --format\ gcc\ --\ %:S
CompilerSet errorformat=%f:%l:%c:\ %trror:\ %m,%f:%l:%c:\ %tarning:\ %m,%f:%l:%c:\ %tote:\ %m,%-Glint:\ %.%#,%-Gforec:\ %.%#
