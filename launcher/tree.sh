# shellcheck shell=bash disable=SC2154
# Read by bin/install and bin/package, which set `top`, the top of the repository: which program it is, and what both put under a prefix.
. "$top/launcher/build.sh"

# The program is the repository's, which is built first where it has to be, or PROGRAM of the environment, one that was built elsewhere.
find_program() {
  if [ -z "${PROGRAM:-}" ]; then
    is_built || build
    return
  fi
  program=$PROGRAM
  [ "$(head -c 4 "$program" 2>/dev/null)" = $'\x7fELF' ] && return
  say "$program isn't a built program"
  return 3
}

# Puts the program, what starts it, its man page and the completion of its words below this folder.
put_program() {
  install -D -m 755 "$program" "$1/lib/fiorun/fiorun"
  install -m 755 "$top/launcher/launch" "$top/launcher/start" "$1/lib/fiorun"
  install -D -m 755 "$top/launcher/command" "$1/bin/fiorun"
  install -D -m 644 "$top/docs/fiorun.1" "$1/share/man/man1/fiorun.1"
  install -D -m 644 "$top/launcher/completion.sh" "$1/share/bash-completion/completions/fiorun"
}
