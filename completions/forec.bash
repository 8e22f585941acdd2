# Completion of `forec` for bash: commands, `.forec` files, options, `.trace` files after `<`, `.vcd` files for `unwave`, and `.log` files for
# `replay`.
#
# Usage: source this file, or install it as share/bash-completion/completions/forec under a prefix.

_forec_commands="run check threads code explain gen wave unwave log replay farm"
_forec_tools="why lint test trace table plot new exchanges"

# The options that a command takes.
_forec_options_of() {
  case $1 in
    run) echo "--cores --place --budget --fold" ;;
    gen | wave | log) echo "--cores --place --budget" ;;
    threads) echo "--cores --place --fold" ;;
    code) echo "--fold" ;;
    explain) echo "--budget --order --fold" ;;
    replay | farm) echo "--budget" ;;
  esac
}

# The pages of help that lie beside the command, if there are any.
_forec_pages() {
  local command page
  command=$(type -P -- "$1") || return
  for page in "$(dirname "$(readlink -f "$command")")"/docs/help/*.txt; do
    [ -f "$page" ] && basename "$page" .txt
  done
}

# The tools that lie beside the command, if there are any.
_forec_tools_here() {
  local command tool
  command=$(type -P -- "$1") || return
  for tool in $_forec_tools; do
    [ ! -x "$(dirname "$(readlink -f "$command")")/tools/$tool" ] || echo "$tool"
  done
}

# The options that a tool takes.
_forec_options_of_tool() {
  case $1 in
    why) echo "--cores --place --budget" ;;
    lint) echo "--check --format" ;;
    test) echo "--accept --tap --junit --jobs --seconds" ;;
    trace) echo "--columns --scale --changes --rows" ;;
    table) echo "--changes --width" ;;
    plot) echo "--only --from --to --width --svg --png --cores" ;;
    exchanges) echo "--budget --ticks --only --all --units" ;;
  esac
}

# Offers what fits after the name of a tool: an option, or a file of the sort that it reads.
_forec_offer_for_tool() {
  local files='*'
  case $1 in
    why | lint | test | exchanges) files='*.forec' ;;
    table | plot) files='*.trace' ;;
  esac
  if [[ $2 = -* ]]; then
    _forec_offer_words "$(_forec_options_of_tool "$1") --help" "$2"
  elif [[ $1 = @(why|exchanges) && $3 = 1 ]]; then
    _forec_offer_files '*.trace' "$2"
  elif [[ $1 = @(why|exchanges) && $3 -gt 1 ]]; then
    _forec_offer_files '*.log' "$2"
  elif [[ $1 = table || $1 = plot ]] && [ "$3" -gt 0 ]; then
    _forec_offer_files '*.report' "$2"
  elif [ "$1" != new ]; then
    _forec_offer_files "$files" "$2"
  fi
}

# Offers the files whose names fit a pattern, and folders.
_forec_offer_files() {
  compopt -o filenames 2> /dev/null
  mapfile -t COMPREPLY < <(compgen -d -- "$2"; compgen -f -X "!$1" -- "$2" | while IFS= read -r file; do
    [ -d "$file" ] || printf '%s\n' "$file"
  done)
}

_forec_offer_words() {
  mapfile -t COMPREPLY < <(compgen -W "$1" -- "$2")
}

# Offers the value of an option: some numbers of cores, the usual budget and the bound, or some orders of steps.
_forec_offer_value() {
  case $1 in
    --cores) _forec_offer_words "1 2 4 8 16 32 64" "$2" ;;
    --budget) _forec_offer_words "10000000 bound" "$2" ;;
    --order) _forec_offer_words "0 1 2 3" "$2" ;;
  esac
}

# Offers the options of a command that don't stand among the words yet.
_forec_offer_options() {
  local option left="" given=" ${*:3} "
  for option in $(_forec_options_of "$1"); do
    [[ $given = *" $option "* ]] || left+=" $option"
  done
  _forec_offer_words "$left" "$2"
}

# Offers traces for `farm`, and its options where no letter of a word stands yet.
_forec_offer_traces() {
  local traces
  _forec_offer_files '*.trace' "$1"
  traces=("${COMPREPLY[@]}")
  COMPREPLY=()
  [ -n "$1$2" ] || _forec_offer_options farm "$1" "${@:3}"
  COMPREPLY+=("${traces[@]}")
}

# Offers what fits after these words of a command: a value, an option, or the program.
_forec_offer_after() {
  local word=$1 command=$2 each value="" plain="" positional=0 given=()
  shift 2
  for each; do
    if [ "$each" = = ]; then
      continue
    elif [ -n "$value" ]; then
      value=""
    elif [ -n "$plain" ] || [[ $each != -* ]]; then
      positional=$((positional + 1))
    elif [ "$each" = -- ]; then
      plain=yes
    elif [ "$each" = --fold ]; then
      given+=("$each")
    else
      value=$each given+=("$each")
    fi
  done
  if [ -n "$value" ]; then
    _forec_offer_value "$value" "${word#=}"
  elif [ "$command" = farm ] && [ "$positional" -gt 0 ] && { [ -n "$plain" ] || [[ $word != -* ]]; }; then
    _forec_offer_traces "$word" "$plain" "${given[@]}"
  elif [ "$command" = replay ] && [ "$positional" = 1 ] && { [ -n "$plain" ] || [[ $word != -* ]]; }; then
    _forec_offer_files '*.log' "$word"
  elif [[ $word = -* || $positional -gt 0 ]] && [ -z "$plain" ]; then
    _forec_offer_options "$command" "$word" "${given[@]}"
  elif [ "$positional" = 0 ] && [ "$command" = unwave ]; then
    _forec_offer_files '*.vcd' "$word"
  elif [ "$positional" = 0 ] && [ "$command" != gen ]; then
    _forec_offer_files '*.forec' "$word"
  fi
}

_forec() {
  local word=${COMP_WORDS[COMP_CWORD]} at before=() pages
  COMPREPLY=()
  # After `<` stands a trace, after `>` any file. Elsewhere a redirection counts as nothing.
  for ((at = 1; at < COMP_CWORD; at++)); do
    case ${COMP_WORDS[at]} in
      '<') [ $((at + 1)) = "$COMP_CWORD" ] && { _forec_offer_files '*.trace' "$word"; return; }; at=$((at + 1)) ;;
      '>' | '>>' | '>|' | '2>' | '&>') [ $((at + 1)) = "$COMP_CWORD" ] && { _forec_offer_files '*' "$word"; return; }; at=$((at + 1)) ;;
      *) before+=("${COMP_WORDS[at]}") ;;
    esac
  done
  pages=$(_forec_pages "${COMP_WORDS[0]}")
  case ${#before[@]}:${before[0]-} in
    0:*) _forec_offer_words "$_forec_commands ${pages:+help loop replay-field version watch --help --version} $(_forec_tools_here "${COMP_WORDS[0]}")" "$word" ;;
    1:help) _forec_offer_words "$pages" "$word" ;;
    1:loop | 1:watch) _forec_offer_files '*.toml' "$word" ;;
    1:replay-field) compopt -o filenames 2> /dev/null; mapfile -t COMPREPLY < <(compgen -d -- "$word") ;;
    *:why | *:lint | *:test | *:trace | *:table | *:plot | *:new | *:exchanges) _forec_offer_for_tool "${before[0]}" "$word" $((${#before[@]} - 1)) ;;
    *:run | *:check | *:threads | *:code | *:explain | *:gen | *:wave | *:unwave | *:log | *:replay | *:farm)
      _forec_offer_after "$word" "${before[@]}" ;;
  esac
}

complete -F _forec forec
