# Completion of eds for bash: commands, the types of the sheet, and files.

# What each command takes, word by word; the last goes on.
declare -A _eds_words=(
  [check]="sheet"
  [unpack]="type file sheet"
  [pack]="type file sheet"
  [split]="type file sheet"
  [layout]="type sheet"
  [run]="file sheet"
  [replay]="file sheet"
  [demo]="number"
)

# Prints the types that sheet files declare: of those named, or else of those in this folder. $1 is eds as it was called.
_eds_types() {
  local program types name='[A-Za-z_][A-Za-z0-9_-]*' file
  program=$(readlink -f -- "$(type -P -- "$1")")
  # in its repository eds has its tools beside it; where it was installed, they are on the path
  types=${program%/*}/tools/types
  [[ -x $types ]] || types=$(type -P eds-types) || return
  shift
  (($#)) || set -- *.json
  for file in "${@:1:64}"; do
    file=${file//\\/}
    file=${file/#\~\//$HOME/}
    [[ -f $file ]] && "$types" "$file" 2>/dev/null
  done | cut -f 1 | grep -xE "$name(/$name)+" | sort -u
}

_eds() {
  local word=${COMP_WORDS[COMP_CWORD]} takes kind type
  COMPREPLY=()
  if ((COMP_CWORD == 1)); then
    mapfile -t COMPREPLY < <(compgen -W "${!_eds_words[*]}" -- "$word")
    return
  fi
  read -ra takes <<<"${_eds_words[${COMP_WORDS[1]:-none}]-}"
  ((${#takes[@]})) || return
  kind=${takes[COMP_CWORD - 2]:-${takes[-1]}}
  case $kind in
    type)
      # what a sheet says is compared and never expanded, as compgen -W would
      while IFS= read -r type; do
        [[ $type == "$word"* ]] && COMPREPLY+=("$type")
      done < <(_eds_types "${COMP_WORDS[0]}" "${COMP_WORDS[@]:${#takes[@]}+1}")
      ;;
    file | sheet)
      compopt -o filenames 2>/dev/null
      [[ $kind == sheet ]] && mapfile -t COMPREPLY < <(compgen -f -X '!*.json' -- "$word"; compgen -d -- "$word")
      ((${#COMPREPLY[@]})) || mapfile -t COMPREPLY < <(compgen -f -- "$word")
      ;;
  esac
}

complete -F _eds eds
