#!/usr/bin/env bash
# Checks one message live, or one report address: looks up with dig each name that ./dmarc --next gives, until the verdict or
# the outcome stands.
# usage: check.sh [--explain] FILE [DIG OPTION]...   as in: check.sh message.txt @127.0.0.1 -p 5300
#        check.sh [--explain] --address DOMAIN ENTRY [DIG OPTION]...
# FILE is a description without answers. Ends with 0 after a verdict or an outcome, 1 if it could not be run, 2 for a mistake in
# the words, 3 if it was refused.
set -u
usage="usage: check.sh [--explain] FILE [DIG OPTION]...
       check.sh [--explain] --address DOMAIN ENTRY [DIG OPTION]..."
dmarc=${DMARC:-$(dirname "$(readlink -f "$0")")/../../dmarc}

# Whether dig had an answer: NOERROR or NXDOMAIN, not cut off (tc), and no referral, so from a server that has authority (aa)
# or asks on for us (ra). Anything else, no reply at all too, is an error.
is_answer() {
  local flags
  flags=$(sed -n 's/^;; flags: \([^;]*\);.*/ \1 /p' <<< "$1")
  grep -Eq '^;; ->>HEADER<<- .*status: (NOERROR|NXDOMAIN),' <<< "$1" || return
  [[ $flags != *" tc "* && ($flags == *" aa "* || $flags == *" ra "*) ]]
}

# The TXT records of a reply, a line each, if there are any. Others are CNAMEs on the way to them.
records() {
  sed -En 's/^[^;[:space:]]+[[:space:]]+[0-9]+[[:space:]]+IN[[:space:]]+TXT[[:space:]]+//p' <<< "$1" | grep .
}

# What dig says for a name, as lines of a description. A name may begin with `-`, so dig is told that it is one.
look_up() {
  local reply
  reply=$(dig -r +noall +answer +comments +nobesteffort +time=2 +tries=1 "${@:2}" -q "$1." -t TXT)
  if is_answer "$reply"; then
    records "$reply" || echo none
  else
    echo error
  fi | sed "s/^/answer $1 /"
}

# Runs ./dmarc in one of its forms on what is known so far.
run() {
  "$dmarc" "$1" "${check[@]}" "$work/known.txt"
}

# The next name to look up (status 0), the verdict or the outcome (4), or a refusal (3).
next() {
  said=$(run --next)
  status=$?
}

# Makes a file that can be written at its end: of a message all of it, of an address the answers.
begin() {
  work=$(mktemp -d) || exit 1
  trap 'rm -rf "$work"' EXIT
  if [ ${#check[@]} -gt 0 ]; then
    : > "$work/known.txt" || exit 1
  else
    { cat -- "$1" && echo; } > "$work/known.txt" || exit 1
  fi
}

if [ "${1-}" = --explain ]; then explain=yes && shift; else explain=no; fi
if [ "${1-}" = --address ]; then of=3; else of=1; fi
[ $# -ge "$of" ] || { echo "$usage" >&2 && exit 2; }
command -v dig > /dev/null || { echo "check.sh: dig is not on the path" >&2 && exit 1; }
if [ "$of" -eq 3 ]; then check=(--address -- "$2" "$3"); else check=(); fi
begin "$1"
shift "$of"

next
while [ "$status" -eq 0 ]; do
  name=$said
  cp "$work/known.txt" "$work/before.txt"
  look_up "$name" "$@" >> "$work/known.txt"
  next
  if [ "$status" -ne 0 ] && [ "$status" -ne 4 ]; then
    echo "check.sh: $name: the answer is over a limit or unreadable, so it is taken as an error" >&2
    { cat "$work/before.txt" && echo "answer $name error"; } > "$work/known.txt"
    next
  fi
done

if [ "$status" -eq 4 ] && [ "$explain" = yes ]; then
  run --explain
  exit
fi
[ -z "$said" ] || printf '%s\n' "$said"
[ "$status" -eq 4 ] || exit "$status"
