# Which program a script at the top runs, and how it has it built: the proved one where it is built and not older than its
# sources, else one of which nothing is proved. It is sourced by `index`, `lafkundi` and tools/install, which set before
#   here      the top of the repository
#   name      the script's name
#   crate     the crate of the program
#   asked     either, --prove or --unproved
# and use `choose_program`, which sets `program`.
proved=$here/crates/$crate/out/$crate
unproved=$here/out/unproved-$crate

# By which minute crates that wait for each other were proved in the run of docs/BENCHMARKS.md; of the last one, and so
# of the end, no minute was written down.
proved_by="definitions 3 segment_postings 16 walks 22 reader_scorers 49 weights 57 query 64 segment_search 69
  index_state 77 engine 80 index 83 $crate 90"

# Which state of the repository this is.
version() {
  git -c safe.directory="$here" -C "$here" describe --always --dirty 2>/dev/null || echo of a copy without git
}
tell_version() { echo "$name $(version)"; }

# The toolchain builds the program.
needs_rt() {
  command -v rt >/dev/null && return
  echo "$name: there is no command rt: the program is built by Rattle, whose folder bin must be in PATH." >&2
  exit 1
}

# The crates that the program stands on, and itself, one on a line.
crates_below() {
  awk -v program="$crate" '
    function visit(name,   used, i, n) {
      if (!(name in uses) || name in seen) return
      seen[name]
      print name
      n = split(uses[name], used, " ")
      for (i = 1; i <= n; i++) visit(used[i])
    }
    { sub(/#.*/, "") }
    NF { name = $1; $1 = ""; sub(/:$/, "", name); uses[name] = $0 }
    END { visit(program) }' "$here/crates.txt"
}

# is_fit PROGRAM FOLDER..: whether it is built, and no file in these folders of its crates is newer.
is_fit() {
  local program=$1 below
  local -a folders
  [ -x "$program" ] || return 1
  for below in $(crates_below); do
    folders=("${@:2}")
    folders=("${folders[@]/#/$here/crates/$below/}")
    [ -z "$(find "${folders[@]}" -type f -newer "$program" -print -quit 2>/dev/null)" ] || return 1
  done
}

# What was proved is what the specs say.
is_proved() { is_fit "$proved" src specs; }
is_unproved_built() { is_fit "$unproved" src; }

# How many crates are proved side by side: one a processor, as far as memory goes.
lanes() {
  local processors by_memory
  processors=$(nproc)
  by_memory=$(awk '/^MemAvailable/ { print int($2 / 4500000) }' /proc/meminfo)
  echo $((by_memory < 1 ? 1 : by_memory < processors ? by_memory : processors))
}

# minutes_left PROVED..: by the pace of this run, which began SECONDS ago, along the crates that wait for each other. What
# was proved in its first minute was kept from an earlier run.
minutes_left() {
  awk -v table="$proved_by" -v proved=" $* " -v now="$SECONDS" '
    BEGIN {
      n = split(table, entry, " ")
      for (i = 1; i < n; i += 2) {
        if (match(proved, " " entry[i] ":[0-9]+ ")) {
          at = entry[i + 1]
          when = substr(proved, RSTART + length(entry[i]) + 2, RLENGTH)
          if (when + 0 < 60) kept = at; else reached = when + 0
        }
      }
      for (i = n; i > 1 && entry[i] > at; i -= 2) following = entry[i]
      pace = at > kept ? reached / (at - kept) : 60
      stands = at + (now - reached) / pace
      if (stands > following) stands = following
      if (stands > kept) pace = now / (stands - kept)
      print int((entry[n] - stands) * pace / 60) + 1
    }'
}

# tell_progress WHAT PROVED..
tell_progress() {
  echo "$name: $1, $((SECONDS / 60)) minutes gone, some $(minutes_left "${@:2}") left" >&2
}

# Says which crates are proved, and now and then how far that is, as the build's lines come.
tell_crates() {
  local first built status all whens=()
  all=$(crates_below | wc -l)
  SECONDS=0
  while true; do
    status=0
    read -r -t 300 first built _ || status=$?
    if [ $status -gt 128 ]; then
      tell_progress "${#whens[@]} of $all crates are proved" "${whens[@]}"
    elif [ $status != 0 ]; then
      return
    elif [ "$first" = == ] && [ -e "$here/crates/$built/out/rlib/stamp" ]; then
      whens+=("$built:$SECONDS")
      tell_progress "$built is proved: ${#whens[@]} of $all crates" "${whens[@]}"
    fi
  done
}

# Proves the crates, several at a time, what failed so (for want of memory, say) alone, and then the program, which is
# run once, without a file.
prove() {
  local log
  if [ -x "$proved" ]; then
    echo "$name: the program is older than its sources: what changed, and what stands on it, is proved again." >&2
  else
    echo "$name: everything that the program stands on is proved, about two hours on four processors." >&2
    echo "$name: an interrupted proof goes on where it was; meanwhile ./$name answers by an unproved program." >&2
  fi
  rm -f "$proved"
  log=$(mktemp)
  cd -- "$here/crates/$crate"
  { rt all check --jobs "$(lanes)" || true; rt run; } < /dev/null 2>&1 | tee "$log" | tell_crates
  cd - > /dev/null
  [ -x "$proved" ] || tail -n 40 "$log" >&2
  rm -f "$log"
  [ -x "$proved" ] || exit 1
  echo "$name: the program is proved and built." >&2
}

build_unproved() {
  echo "$name: building the program, of which nothing is proved; it takes some minutes, and is kept." >&2
  "$here/tools/unproved" "$crate" "$unproved" < /dev/null >&2 || exit 1
}

# build_in_turn IS_BUILT BUILD: builds a program, or waits for another call that does; descriptor 9 is the lock.
build_in_turn() {
  needs_rt
  if command -v flock >/dev/null && ! flock --nonblock 9; then
    echo "$name: another call builds the program: waiting for it." >&2
    flock 9
  fi
  "$1" || "$2"
}

# Sets the program that is run, and builds it where it isn't fit.
choose_program() {
  if [ "$asked" != --unproved ] && is_proved; then
    program=$proved
    return
  fi
  if [ "$asked" = --prove ]; then
    mkdir -p "$here/out"
    build_in_turn is_proved prove 9> "$here/out/proved.lock"
    program=$proved
    return
  fi
  if [ "$asked" = either ] && [ -x "$proved" ]; then
    echo "$name: the proved program is older than its sources, so it isn't run; ./$name --prove proves what changed." >&2
  fi
  if ! is_unproved_built; then
    mkdir -p "$here/out"
    build_in_turn is_unproved_built build_unproved 9> "$here/out/unproved.lock"
  fi
  program=$unproved
  echo "$name: nothing is proved of this program; ./$name --prove proves it." >&2
}

# Sets what a program is started with.
keep_manners() {
  # What the program lets go of goes back to the system, but for two mebibytes, in which a search finds room at once.
  # Without this the C library keeps up to twice its largest piece for later, which a program that rests doesn't need.
  export MALLOC_TRIM_THRESHOLD_="${MALLOC_TRIM_THRESHOLD_:-2097152}"
  export MALLOC_MMAP_THRESHOLD_="${MALLOC_MMAP_THRESHOLD_:-2097152}"
  # A write past `ulimit -f` then fails, which is answered as a fault, and no signal ends the program.
  trap '' XFSZ
}
