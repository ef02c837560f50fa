# How the scripts `dmarc` and `library` of the repository's root build: the proved program and library, and the programs of
# tools/. It is read by these scripts, which set `root` and `self`, their own name. One script builds at a time; what is made
# comes to its place whole; and what stops a script stops all that it started.
# shellcheck shell=bash disable=SC2034,SC2154

program=$root/target/bin/dmarc
library=$root/target/lib/libwaslidhaj.a
# The crates whose functions the library has, each a static library.
parts="sheet_run_c waslidhaj_open waslidhaj_calls waslidhaj_reads waslidhaj_rows waslidhaj_gather waslidhaj_names waslidhaj_report waslidhaj_records waslidhaj_fields waslidhaj_check waslidhaj_reader"
tools=$root/tools/target/release/dmarc-tools
records=$root/tools/target/release/dmarc-records
# What rt said when it last proved for a script.
log=$root/target/log/$self-build.log
# What all that is proved is made from, but for the folders out/, where rt keeps what it made.
sources=("$root/crates" "$root/crates.txt")
# It is held while something is built; its time is when that was begun.
lock=$root/target/lock
# What is removed when the script ends.
left=()
# Whether something was said of the lock.
lock_said=no

say() { printf '%s: %s\n' "$self" "$*" >&2; }

fail() {
  say "$@"
  exit 1
}

need() {
  command -v "$1" > /dev/null || fail "$1 is not on the path; $2"
}

clean_up() {
  [ ${#left[@]} -eq 0 ] || rm -rf "${left[@]}"
}

# Ends what runs, each a group of processes or a process alone, cleans up, and ends by the same signal.
stopped() {
  local process
  trap '' INT TERM HUP
  for process in $(jobs -p); do
    kill -s TERM -- "-$process" 2> /dev/null || kill -s TERM "$process" 2> /dev/null || true
    wait "$process" 2> /dev/null || true
  done
  clean_up
  trap - EXIT "$1"
  kill -s "$1" "$$"
}
trap clean_up EXIT
for signal in INT TERM HUP; do
  # shellcheck disable=SC2064
  trap "stopped $signal" "$signal"
done

# Runs a command with the script's own input, as one that a signal to the script ends: the shell hears a signal while it
# waits, and not while a command runs.
attend() {
  "$@" <&0 &
  wait "$!"
}

# The same with no input, for a command that starts others: they are a group, and the signal ends all of it. A part of the
# script that is such a group already starts no other.
attend_all() {
  if [ "$BASH_SUBSHELL" -gt 0 ]; then
    (exec 9>&- && "$@" < /dev/null)
    return
  fi
  set -m
  (set +m && exec 9>&- && "$@") < /dev/null &
  set +m
  wait "$!"
}

# Whether some more can be written in a folder, if it is there.
has_room() {
  local file status=0
  [ -d "$1" ] || return 0
  file=$(mktemp "$1/room.XXXXXX" 2> /dev/null) || return
  { head -c 65536 /dev/zero > "$file"; } 2> /dev/null || status=$?
  rm -f "$file"
  return "$status"
}

# Names each folder of a build in which nothing more can be written, and fails.
fail_to_build() {
  local folder
  for folder in "$root/target" "$root/tools/target" "${TMPDIR:-/tmp}"; do
    has_room "$folder" || say "nothing more can be written in $folder; its disk may be full"
  done
  fail "$@"
}

# Whether a file is there and no file of what it is made from is newer.
is_current() {
  local made=$1
  shift
  [ -e "$made" ] && [ -z "$(find "$@" -type d -name out -prune -o -type f -newer "$made" -print -quit)" ]
}

# Says it once.
say_of_lock() {
  [ "$lock_said" = yes ] || say "$@"
  lock_said=yes
}

# Holds the lock, after any other build in this repository.
take_lock() {
  { mkdir -p "${log%/*}" && exec 9>> "$lock"; } 2> /dev/null ||
    fail "$root/target cannot be written, and all is built there; see its permissions, and whether its disk is full"
  if ! command -v flock > /dev/null; then
    say_of_lock "flock is not on the path, so nothing keeps two builds apart"
  elif ! flock -n 9; then
    say_of_lock "another build is running here; waiting for it"
    flock 9 &
    wait "$!" || fail "$lock cannot be locked"
  fi
  touch "$lock" || fail_to_build "$lock cannot be written"
}

drop_lock() { exec 9>&-; }

# Gives a file made from others the present time or, if one of these was changed meanwhile, that when it was begun.
set_time() {
  local made=$1
  shift
  if is_current "$lock" "$@"; then
    touch "$made"
  else
    touch -r "$lock" "$made"
  fi
}

# Builds a thing by `build_THING`, one script at a time, unless `has_THING` says that it is there and current.
ensure() {
  local thing=$1
  shift
  if "has_$thing" "$@"; then
    return 0
  fi
  take_lock
  # Another script may have built it meanwhile.
  "has_$thing" "$@" || "build_$thing" "$@"
  drop_lock
}

# The crates that some stand on, themselves among them.
list_crates() {
  awk -v wanted="$*" '
    function visit(name, on, count, i) {
      if (!(name in deps) || name in seen) return
      seen[name] = 1
      print name
      count = split(deps[name], on, " ")
      for (i = 1; i <= count; i++) visit(on[i])
    }
    { sub(/#.*/, "") }
    split($0, line, ":") == 2 { split(line[1], word, " "); deps[word[1]] = line[2] }
    END { count = split(wanted, name, " "); for (i = 1; i <= count; i++) visit(name[i]) }
  ' "$root/crates.txt"
}

time_gone() { printf '%dm%02ds' $((SECONDS / 60)) $((SECONDS % 60)); }

# One line for each crate that rt proves. Of those of which it has a proof it says nothing: they are counted, with no word,
# when the first crate that stands on them is proved.
progress() {
  local total=$1 line name='' checked=0 below
  local -A seen
  while IFS= read -r line; do
    case $line in
      "crate "*": modules "*) name=${line#crate } name=${name%%:*} checked=${line##*checked=} ;;
      "logic=proved "*)
        if [ -z "$name" ] || [ -n "${seen[$name]-}" ]; then
          continue
        fi
        for below in $(list_crates "$name"); do
          seen[$below]=yes
        done
        [ "$checked" = 0 ] || say "${#seen[@]} of $total proved: $name ($(time_gone) gone)"
        ;;
    esac
  done
}

# rt with some words, in a crate's folder.
run_rt() {
  (cd "$root/crates/$1" && rt "${@:2}" 2>&1)
}

# Runs words that call rt, with a log and progress among so many crates.
run_with_progress() {
  local total=$1
  shift
  "$@" | tee "$log" | progress "$total"
}

# Proves crates by words that call rt, or says what failed.
prove() {
  local crates total
  mapfile -t crates < <(list_crates "$1")
  total=${#crates[@]}
  shift
  need rt "the Rattle toolchain proves and builds what is run"
  say "looking at $total crates, and proving those that have no proof yet; the first time this takes some minutes"
  attend_all run_with_progress "$total" "$@" ||
    fail_to_build "rt failed; ${log#"$root"/} has what it said"
}

# Puts what rt made of the sources in its place, where it is there whole or not at all.
keep() {
  local made=$1 place=$2
  local new=${place%/*}/new
  mkdir -p "${place%/*}" && cp "$made" "$new" && set_time "$new" "${sources[@]}" && mv -f "$new" "$place" && return
  rm -f "$new"
  return 1
}

has_program() {
  is_current "$program" "${sources[@]}"
}

# rt builds a program to run it, here on no input.
build_program() {
  local made=$root/crates/dmarc/out/dmarc
  left+=("${program%/*}/new")
  prove dmarc run_rt dmarc run
  [ -e "$made" ] || fail_to_build "rt made no ${made#"$root"/}; ${log#"$root"/} has what it said"
  keep "$made" "$program" || fail_to_build "${program#"$root"/} cannot be written"
}

# The proved program.
make_program() {
  ensure program
}

# A package of tools/, whose program is a file made from others.
has_package() {
  is_current "${@:2}" "$root/tools/Cargo.toml" "$root/tools/Cargo.lock"
}

build_package() {
  local package=$1 made=$2
  need cargo "it builds tools/, which reads descriptions and has the words"
  say "building tools/$package, which takes up to a minute"
  attend_all cargo build --quiet --release --offline --manifest-path "$root/tools/Cargo.toml" --package "$package" \
    --target-dir "$root/tools/target" >&2 ||
    fail_to_build "tools/ could not be built; can $root/tools/target be written?"
  [ -e "$made" ] || fail_to_build "cargo made no ${made#"$root"/}"
  set_time "${@:2}" "$root/tools/Cargo.toml" "$root/tools/Cargo.lock"
}

# The program that makes sheets and has the words.
make_tools() {
  ensure package sheets "$tools" "$root/tools/evaluator/src" "$root/tools/sheets/src"
}

has_library() {
  is_current "$library" "${sources[@]}"
}

# The archive of a part, which comes here when rt has made all of it, and stays though rt makes another.
part_archive() {
  printf '%s' "$root/target/lib/parts/lib$1.a"
}

build_parts() {
  local part
  for part in "$@"; do
    run_rt "$part" lib || return
    keep "$root/crates/$part/out/lib$part.a" "$(part_archive "$part")" || return
  done 2>&1
}

# Joins the archives of the parts in a new one, which is there whole or not at all.
join_parts() {
  local part objects=$root/target/lib/objects new=$library.new
  left+=("$objects" "$new")
  rm -rf "$objects" "$new"
  mkdir "$objects" || return
  for part in $parts; do
    (cd "$objects" && ar x "$(part_archive "$part")") || return
  done
  ar rcsD "$new" "$objects"/*.o || return
  # What ar leaves unwritten it does not always say.
  has_room "${library%/*}" || return
  set_time "$new" "${sources[@]}" && mv -f "$new" "$library" && rm -rf "$objects"
}

build_library() {
  local part lacking=()
  need ar "it joins the parts of the library; gcc's packages have it"
  mkdir -p "$root/target/lib/parts" || fail_to_build "$root/target/lib cannot be written"
  left+=("$root/target/lib/parts/new")
  for part in $parts; do
    is_current "$(part_archive "$part")" "${sources[@]}" || lacking+=("$part")
  done
  [ ${#lacking[@]} -eq 0 ] || prove "${lacking[*]}" build_parts "${lacking[@]}"
  join_parts || fail_to_build "the parts of the library cannot be joined in ${library%/*}"
}

# The library for other languages: the archives of its parts in one.
make_library() {
  ensure library
}

# The writer and reader of policy records, which reads fields, checks addresses, tells days, writes reports and reads them too.
make_records() {
  make_library
  ensure package records "$records" "$library" "$root/rust/src" "$root/tools/evaluator/src" \
    "$root/tools/sheets/src" "$root/tools/records/src"
}
