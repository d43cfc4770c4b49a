# What ./canvas and ./try answer while there is no program: help, the version, an unknown command, and a FILE that can't be read. The program answers
# everything else. Whoever reads this has set `top`.

# shellcheck source=/dev/null
source "$top/tools/scripts/words.bash" || return 1

# Sets `command`, and from the words after it `files` and `options`, each with its value.
read_words() {
  command="${1:-}" files=() options=()
  while (($# > 1)); do
    shift
    case "$1" in
      --) files+=("${@:2}") && return 0 ;;
      -?*)
        options+=("$1")
        if takes_value "$command $1" && (($# > 1)); then
          options+=("$2")
          shift
        fi
        ;;
      *) files+=("$1") ;;
    esac
  done
}

# Prints a word as part of a line. A word that has anything but printable ASCII is quoted as the shell does it, so that it ends no line and controls no
# terminal.
in_line() {
  local LC_ALL=C
  case "$1" in
    *[!\ -~]*) printf '%q' "$1" ;;
    *) printf '%s' "$1" ;;
  esac
}

# Says what is wrong with the words, as the program does, and ends.
refuse_words() {
  printf "error: %s\n\nUsage: canvas <COMMAND>\n\nFor more information, try '--help'.\n" "$1" >&2 || :
  exit 1
}

# Answers and ends, unless only the program can answer.
answer_unbuilt() {
  local file names="${commands[*]}"
  local -a unread=()
  case "$command ${options[*]-} " in
    'help '* | '--help '* | '-h '* | *' --help '* | *' -h '*)
      printf '%s\n' "Usage: canvas COMMAND FILE [OPTIONS]" "Commands: $names" \
        "No build of this tree is here yet: the program's own help comes once it is built. Its manual is docs/canvas.1: man -l docs/canvas.1"
      exit 0
      ;;
    '--version '* | '-V '*)
      sed -n 's/.*VERSION: &str = "\(.*\)".*/canvas \1/p' "$top/crates/canvas_words/src/program.rt"
      exit 0
      ;;
    ' '*) refuse_words "'canvas' requires a subcommand but one was not provided"$'\n'"  [subcommands: ${names// /, }]" ;;
    -*) refuse_words "unexpected argument '$(in_line "$command")' found" ;;
  esac
  if [[ " $names " != *" $command "* ]]; then refuse_words "unrecognized subcommand '$(in_line "$command")'"; fi
  for file in "${files[@]}"; do
    if [ "$file" != - ] && { [ ! -r "$file" ] || [ -d "$file" ]; }; then unread+=("$file"); fi
  done
  if ((${#unread[@]} == 0 || ${#unread[@]} < ${#files[@]})) || [[ " ${options[*]-} " == *' --json '* ]]; then return 0; fi
  for file in "${unread[@]}"; do printf 'canvas: cannot read %s\n' "$(in_line "$file")" >&2 || :; done
  exit 1
}
