# shellcheck shell=bash disable=SC2154
# Read by bin/fiorun, bin/install and bench/floor, which set `top`, the top of the repository: is the program built, and its build.
out=$top/crates/fiorun/out
program=$out/fiorun
# What crates stand on: of each library that is built its folder, a stamp as it was made, and its log. The program has the latter two.
built=$out/built
# Made as a build begins, and renamed when it has ended well: so an interrupted build is seen, and an edit during one.
begun=$out/build.begun
ended=$out/build.ended

# Is the program there, and no source newer than the start of its build (or than itself, where the gate made it)?
is_built() {
  local since=$program
  [ -x "$program" ] && [ ! -e "$begun" ] || return 1
  [ ! -e "$ended" ] || since=$ended
  [ -z "$(find "$top/crates.txt" "$top"/crates/*/{src,specs,proofs} -newer "$since" -print -quit 2>/dev/null)" ]
}

say() { printf 'fiorun: %s\n' "$*" >&2; }

# Builds the program where it isn't built, one build at a time: a second one waits, and then finds it built.
build() {
  if ! command -v rt >/dev/null; then
    say "cannot build: the kit's rt is not on the path"
    return 3
  fi
  # (a folder of its own to lock: rt locks those of the crates)
  exec 9<"$top/launcher"
  if ! flock -n 9; then
    say "waiting for a build that another start has begun"
    flock 9
  fi
  local status=0
  is_built || build_crates || status=3
  exec 9<&-
  return $status
}

# Builds all that has to be built, and says how far it is.
build_crates() {
  local run
  SECONDS=0
  what="build"
  [ -e "$program" ] || what="first build"
  mkdir -p "$built"
  touch "$begun"
  # (in a process group of its own, so that all of it can be ended)
  set -m
  make_crates </dev/null >&2 &
  run=$!
  set +m
  trap 'kill -- "-$run" 2>/dev/null; wait; exit 130' INT TERM HUP
  wait "$run" || return 1
  trap - INT TERM HUP
  say "$what: done in $(((SECONDS + 30) / 60)) min"
  mv "$begun" "$ended"
}

# Makes the crates that aren't made, side by side, each as soon as those below it are there. One that is made alone gets several provers;
# that takes a quarter more of a processor, so those beside others get one.
make_crates() {
  local name places running=0 count=0 chosen share
  set +m
  places=$(places)
  list_crates
  while [ "${#left[@]}" -gt 0 ] || [ "$running" -gt 0 ]; do
    choose_crates $((places - running))
    running=$((running + ${#chosen[@]}))
    for name in "${chosen[@]}"; do
      count=$((count + 1))
      say "$what: proving $name ($count of $total), $((SECONDS / 60)) min"
      # (the program stands on all others: they have ended, whether they were waited for or not)
      share=$((places / running))
      [ "$name" != fiorun ] || share=$places
      make_crate "$name" "$share" &
    done
    # (where one fails, the others go on to their ends)
    wait -n || {
      wait
      return 1
    }
    running=$((running - 1))
  done
}

# The crates that aren't made. What has the most source above it on a way to the program comes first.
list_crates() {
  local name
  read_crates
  order=()
  visit fiorun
  measure
  for name in "${order[@]}"; do
    is_made "$name" || rm -f "$built/$name.made"
  done
  [ -x "$program" ] || rm -f "$built/fiorun.made"
  mapfile -t left < <(
    for name in "${order[@]}"; do are_made "$name" || printf '%s %s\n' "${above[$name]}" "$name"; done | sort -k1,1nr | cut -d ' ' -f 2
  )
  total=${#left[@]}
}

# Takes so many crates that can be made from those that are left.
choose_crates() {
  local name later=()
  chosen=()
  for name in "${left[@]}"; do
    if [ "${#chosen[@]}" -lt "$1" ] && are_made "$(own_below "$name")"; then chosen+=("$name"); else later+=("$name"); fi
  done
  left=("${later[@]}")
}

# How many lines of source there are on the longest way from each crate up to the program.
declare -A above
measure() {
  local name dep at
  for ((at = ${#order[@]} - 1; at >= 0; at--)); do
    name=${order[at]}
    above[$name]=$((${above[$name]:-0} + $(find "$top/crates/$name/src" -name '*.rt' -exec cat {} + | wc -l)))
    for dep in $(own_below "$name"); do
      [ "${above[$dep]:-0}" -ge "${above[$name]}" ] || above[$dep]=${above[$name]}
    done
  done
}

# What else the library of a crate is made of: the kit, and what crates.txt says that it stands on.
base_of() { printf '%s %s' "$(tr '\n' ' ' <"$(kit_folder)/WHAT")" "${below[$1]}"; }

kit_folder() { dirname "$(dirname "$(readlink -f "$(command -v rt)")")"; }

# Is the crate made of that, and of the sources that are there, and is all below it made?
is_made() {
  local stamp=$built/$1.made
  [ "$(cat "$stamp" 2>/dev/null)" = "$(base_of "$1")" ] && are_made "$(own_below "$1")" &&
    [ -z "$(find "$top/crates/$1"/{src,specs,proofs} -newer "$stamp" -print -quit 2>/dev/null)" ]
}

# Is each of these crates made?
are_made() {
  local it
  for it in $1; do
    [ -e "$built/$it.made" ] || return 1
  done
}

# How many crates may be proved at once: one for each processor, where there is memory of some 3 GB for each, but at least one.
places() {
  local free
  free=$(sed -n 's/^MemAvailable: *\([0-9]*\) kB/\1/p' /proc/meminfo 2>/dev/null || true)
  free=$((${free:-0} / 3000000))
  [ "$free" -le "$(nproc)" ] || free=$(nproc)
  [ "$free" -ge 1 ] || free=1
  printf '%s' "$free"
}

# Proves and builds a crate over the libraries that are built. Where it fails, it says what was said.
make_crate() {
  local name=$1 log=$built/$1.log stamp proof
  stamp=$(date +%s.%N)
  proof=(prove_library "$name" "$2")
  [ "$name" != fiorun ] || proof=(prove_program fiorun "${below[fiorun]}" "$top/crates/fiorun" "$program" "$2")
  if "${proof[@]}" >"$log" 2>&1; then
    # (as old as its sources were when they were read)
    base_of "$name" >"$built/$name.made" && touch -d "@$stamp" "$built/$name.made"
  else
    say "$name was not built; the end of $log:"
    tail -n 30 "$log" >&2
    return 1
  fi
}

# Proves a crate of the repository, and makes the library that crates above it read: its statements, as the gate does, so that they needn't
# load its proofs. (`rt lib` keeps all proofs for the next check, which takes twice as long.)
prove_library() {
  rattle_of "$1" "${below[$1]}"
  (cd "$top/crates/$1" && "${rattle[@]}" src/lib.rt --jobs "$2" --statements -o "$built/$1.rlib")
}

# Proves the program of this name over these libraries, whose sources are below this folder, and builds it there.
prove_program() {
  local name=$1 folder=$3 to=$4 jobs=$5
  rattle_of "$name" "$2"
  (cd "$folder" && "${rattle[@]}" src/main.rt --jobs "$jobs" --toolchain "$kit/toolchain" --backend llvm -o "$to.o") &&
    "$kit/bin/rattle-link" --target x86_64-unknown-linux-gnu --toolchain "$kit/toolchain" -o "$to" "$to.o" "$kit"/c/lib{os,libc}_c.a
}

# The words that prove a crate of this name over these libraries: those of the repository that are built, and the kit's.
rattle_of() {
  local dep
  kit=$(kit_folder)
  rattle=("$kit/bin/rattle" build --crate-name "$1" -L "dependency=$kit/rlibs" -L "dependency=$built" --links "$1="
    --antt-project "$kit/rattle/logic/antt-project.json" --logic-built "$kit/logic_built" --extern "std=$kit/rlibs/std.rlib")
  for dep in $2; do
    if [ -n "${below[$dep]+here}" ]; then
      rattle+=(--extern "$dep=$built/$dep.rlib")
    else
      rattle+=(--extern "$dep=$kit/rlibs/$dep.rlib")
    fi
  done
}

# The crates of crates.txt, each with what it stands on.
declare -A below
read_crates() {
  local left right
  while IFS=: read -r left right; do
    left=${left%%#*}
    [ -z "${left// /}" ] || below[${left%% *}]=${right# }
  done <"$top/crates.txt"
}

# The crates of the repository that this one names.
own_below() {
  local dep
  for dep in ${below[$1]}; do
    [ -z "${below[$dep]+here}" ] || printf '%s ' "$dep"
  done
}

# Puts a crate of the repository behind those that it stands on.
visit() {
  local dep
  case " ${order[*]} " in *" $1 "*) return 0 ;; esac
  for dep in $(own_below "$1"); do visit "$dep"; done
  order+=("$1")
}
