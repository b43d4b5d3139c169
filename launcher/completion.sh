# shellcheck shell=bash
# Bash completion of fiorun: the words that its --help names, and what may stand behind each. It needs bash and sed alone.

# The options, a line for each: its word, what it takes (FILE-, LEDGER-, NAME-, N-, or - for nothing) and what --help says of it.
_fiorun_options() {
  "${1/#\~\//$HOME/}" --help 2>/dev/null | sed -nE 's/^ +(-., )?(--[a-z0-9-]+)( <([A-Z]+)>)?( +(.*))?$/\2 \4- \6/p'
}

# The words that can come next: each option but those that the launcher gives, with a = where something has to follow.
_fiorun_words() { _fiorun_options "$1" | sed -E '/^--(drop-pipes|stop-fd) /d; s/^([^ ]+) [A-Z]+- .*/\1=/; s/ .*//'; }

# The names of the jobs in the files that the line names.
_fiorun_jobs() {
  local file
  for file in "${COMP_WORDS[@]:1}"; do
    [ ! -f "$file" ] || sed -nE 's/^[[:space:]]*\[([^]]*)\].*/\1/p' <"$file" | grep -vx global
  done
}

# What an option takes, by what --help says of it: words that it lists, or numbers from one to another, or their powers of two. Of more
# than a hundred numbers none is offered.
_fiorun_values() {
  local number=0 last=-1 step=1
  case $1 in
    *'[possible values: '*)
      set -- "${1##*possible values: }"
      set -- "${1%%]*}"
      printf '%s\n' "${1//, /$'\n'}"
      ;;
  esac
  if [[ $1 =~ from\ ([0-9]+)\ to\ ([0-9]+) ]]; then
    number=${BASH_REMATCH[1]} last=${BASH_REMATCH[2]}
  fi
  if [[ $1 == *power\ of\ two* ]]; then
    step=0
  elif [ $((last - number)) -ge 100 ]; then
    return
  fi
  while [ "$number" -le "$last" ]; do
    printf '%s\n' "$number"
    number=$((number + (step ? step : number)))
  done
}

# Offers those lines of the first word that begin as the second does.
_fiorun_offer() {
  local line quoted
  # (and not by compgen -W, which would run what stands in a job's name)
  while IFS= read -r line; do
    [[ -n $line && $line == "$2"* ]] || continue
    printf -v quoted '%q' "$line"
    COMPREPLY+=("$quoted")
  done <<<"$1"
}

_fiorun() {
  local word=${COMP_WORDS[COMP_CWORD]} before=${COMP_WORDS[COMP_CWORD - 1]} front='' option takes='-' says=''
  COMPREPLY=()
  # (bash takes --word=value for three words, unless it is told that = divides none)
  if [ "$word" = = ]; then
    word=''
  elif [ "$before" = = ] && [ "$COMP_CWORD" -ge 2 ]; then
    before=${COMP_WORDS[COMP_CWORD - 2]}
  elif [[ $word == --*=* ]]; then
    before=${word%%=*} front=${word%%=*}= word=${word#*=}
  fi
  case $before in
    --*) read -r option takes says < <(_fiorun_options "$1" | grep -e "^$before ") ;;
  esac
  case ${option:+$takes} in
    FILE- | LEDGER-) ;;
    NAME-) _fiorun_offer "$(_fiorun_jobs)" "$word" ;;
    ?*-) _fiorun_offer "$(_fiorun_values "$says")" "$word" ;;
    *) [[ $word != -* ]] || _fiorun_offer "$(_fiorun_words "$1")" "$word" ;;
  esac
  if [[ $takes == FILE- || $takes == LEDGER- || (-z $option || $takes == -) && $word != -* ]]; then
    compopt -o filenames 2>/dev/null
    mapfile -t COMPREPLY < <(compgen -f -- "$word")
  fi
  [[ ${COMPREPLY[0]-} != --*= ]] || compopt -o nospace 2>/dev/null
  [ -z "$front" ] || COMPREPLY=("${COMPREPLY[@]/#/$front}")
}

complete -F _fiorun fiorun
