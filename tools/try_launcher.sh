#!/usr/bin/env bash
# Tries the launcher ./sqmod in small checkouts of its own, where a script stands for `rt` and "compiles" a script: what it keeps
# and when it compiles anew, without `rt`, for another user, in a checkout that may not be written, by a link, interrupted, and
# with its output closed.
#
# try_launcher.sh [PROGRAM]: with PROGRAM, an installed sqmod, it also tries that this one has each command of the man page. It takes
# some seconds. The status is 0 if nothing differs.
set -uo pipefail
root=$(cd "$(dirname "$0")/.." && pwd)
room=$(mktemp -d)
trap 'chmod -R u+w "$room"; rm -rf "$room"' EXIT
tried=0 wrong=0

# One outcome: what is tried, what is wanted, and what came.
expect() {
  tried=$((tried + 1))
  if [ "$2" != "$3" ]; then
    wrong=$((wrong + 1))
    printf 'Launcher: %s: FAILED: wanted:\n%s\nit was:\n%s\n' "$1" "$2" "$3"
  fi
}

# A file that stands for `rt`. It "compiles" a program that only its owner may run, which prints its words, and notes that it did.
mkdir "$room/kit"
cat >"$room/kit/rt" <<'RT'
#!/bin/sh
echo compiled >>"${COMPILED:?}"
[ -z "${SLOW:-}" ] || sleep "$SLOW"
program=$(mktemp)
trap 'rm -f "$program"' EXIT
cat >"$program" <<'PROGRAM'
if [ "$2" = --script ] && [ -p "$3" ]; then while read -r line; do :; done <"$3"; exit; fi
echo "ran $*"
PROGRAM
[ "$1 $2 $3 $4" = "try --steps 1 --" ] && shift 4 && /bin/sh "$program" "$@"
RT
chmod -R a+rX,a+x "$room" "$room/kit"
export COMPILED=$room/compiled
touch "$COMPILED"
chmod a+w "$COMPILED"

# A new checkout in which there is enough for the launcher.
checkout() {
  local folder=$room/$1
  mkdir -p "$folder/crates/sqmod/src" "$folder/crates/sq_host/src" "$folder/tools" "$folder/docs"
  cp "$root/sqmod" "$folder"
  cp "$root/tools/build_checked.py" "$folder/tools"
  [ ! -f "$root/VERSION" ] || cp "$root/VERSION" "$folder"
  echo 'sqmod:' >"$folder/crates.txt"
  echo '// a source' >"$folder/crates/sqmod/src/main.rt"
  echo '-- a clause' >"$folder/crates/sqmod/src/Main.antt"
  echo "$folder"
}

with_rt() { PATH=$room/kit:/usr/bin:/bin "$@"; }
without_rt() { PATH=/usr/bin:/bin "$@"; }

# The words, run as a user who is not the owner of a checkout: as nobody where this is run as root, else as its owner.
as_other() {
  if [ "$(id -u)" = 0 ]; then setpriv --reuid=65534 --regid=65534 --clear-groups "$@"; else "$@"; fi
}

# How often was compiled since the last time that this was asked.
compiled() {
  grep -c compiled "$COMPILED"
  : >"$COMPILED"
}

# The words' standard output, standard error but for the line that says that it compiles, and status.
said() {
  local status=0
  "$@" >"$room/out" 2>"$room/err" || status=$?
  cat "$room/out"
  grep -v '^sqmod: compiling without proof' "$room/err"
  echo "status $status"
}

here=$(checkout "a checkout")

# ---- what is kept

expect 'without rt and without a program' $'sqmod: there is no command rt on the path; it belongs to the Rattle kit\nstatus 70' \
  "$(said without_rt "$here/sqmod" run 1)"
expect 'a first run' $'ran run 1 2  3\nstatus 0' "$(said with_rt "$here/sqmod" run 1 '2  3')"
expect 'a first run compiles' 1 "$(compiled)"
expect 'a second run' $'ran check\nstatus 0' "$(said with_rt "$here/sqmod" check)"
expect 'a second run compiles nothing' 0 "$(compiled)"
expect 'a run without rt' $'ran run\nstatus 0' "$(said without_rt "$here/sqmod" run)"
expect 'and with rt again' $'ran run\nstatus 0' "$(said with_rt "$here/sqmod" run)"
expect 'nothing was compiled' 0 "$(compiled)"

# ---- what is a change of a source

touch "$here/crates/sqmod/src/main.rt"
echo '-- another clause' >"$here/crates/sqmod/src/Main.antt"
expect 'a source that was only touched' $'ran run\nstatus 0' "$(said with_rt "$here/sqmod" run)"
expect 'is compiled again' 0 "$(compiled)"
echo '// another source' >"$here/crates/sqmod/src/main.rt"
expect 'a change, without rt' $'sqmod: there is no command rt on the path; it belongs to the Rattle kit\nstatus 70' \
  "$(said without_rt "$here/sqmod" run)"
echo '// a source' >"$here/crates/sqmod/src/main.rt"
expect 'the change undone, without rt' $'ran run\nstatus 0' "$(said without_rt "$here/sqmod" run)"
echo '// another source' >"$here/crates/sqmod/src/main.rt"
expect 'a change' $'ran run\nstatus 0' "$(said with_rt "$here/sqmod" run)"
expect 'a change is compiled' 1 "$(compiled)"
expect 'one program is kept' 1 "$(find "$here/out/checked" -mindepth 1 -maxdepth 1 | wc -l)"
echo '// a new source' >"$here/crates/sqmod/src/new.rt"
expect 'a new source' $'ran run\nstatus 0' "$(said with_rt "$here/sqmod" run)"
expect 'a new source is compiled' 1 "$(compiled)"
cp -r "$room/kit" "$room/other kit"
expect 'another rt' $'ran run\nstatus 0' "$(PATH="$room/other kit:/usr/bin:/bin" said "$here/sqmod" run)"
expect 'another rt compiles' 1 "$(compiled)"
expect 'the first rt again' $'ran run\nstatus 0' "$(said with_rt "$here/sqmod" run)"
compiled >"$room/out"

# ---- another user, and a checkout that may not be written

chmod a+rx "$room"
mkdir "$room/home"
chmod a+rwx "$room/home"
expect 'another user' $'ran run\nstatus 0' "$(HOME=$room/home said as_other env PATH=/usr/bin:/bin "$here/sqmod" run)"
expect 'another user compiles nothing' 0 "$(compiled)"
shut=$(checkout 'a shut checkout')
chmod -R a-w "$shut"
other=(as_other env -u XDG_CACHE_HOME "PATH=$room/kit:/usr/bin:/bin" "HOME=$room/home")
expect 'a checkout that may not be written' $'ran run\nstatus 0' "$(said "${other[@]}" "$shut/sqmod" run)"
expect 'it is compiled' 1 "$(compiled)"
if [ "$(id -u)" = 0 ]; then
  expect 'it is kept below the home' 1 "$(find "$room/home/.cache/sqmod" -name start | wc -l)"
fi
expect 'and run again' $'ran run\nstatus 0' "$(said "${other[@]}" "$shut/sqmod" run)"
expect 'it is not compiled again' 0 "$(compiled)"
mkdir "$room/cache"
chmod a+rwx "$room/cache"
expect 'with a folder for caches' $'ran run\nstatus 0' "$(said "${other[@]}" XDG_CACHE_HOME="$room/cache" "$shut/sqmod" run)"
if [ "$(id -u)" = 0 ]; then
  expect 'it is kept there' 1 "$(find "$room/cache/sqmod" -name start | wc -l)"
  compiled >"$room/out"
  expect 'without a home' $'sqmod: the compiled program can be kept neither below out/ nor in a cache: they may not be written\nstatus 70' \
    "$(said as_other env -u XDG_CACHE_HOME -u HOME PATH="$room/kit:/usr/bin:/bin" "$shut/sqmod" run)"
fi
compiled >"$room/out"

# ---- ways to start it

ln -s "$here/sqmod" "$room/a link"
expect 'a link' $'ran run\nstatus 0' "$(said with_rt "$room/a link" run)"
ln -s 'a link' "$room/sqmod"
expect 'a link to a link, from elsewhere' $'ran run\nstatus 0' "$(cd / && said with_rt "$room/sqmod" run)"
for words in help run; do
  with_rt "$here/sqmod" "$words" 2>"$room/err" | { exec 0<&-; sleep 0.2; }
  expect "$words into a closed pipe" '' "$(cat "$room/err")"
done

# ---- an interrupted compile

again=$(checkout 'a checkout again')
SLOW=0 with_rt "$again/sqmod" run >"$room/out" 2>&1
echo '// another source' >"$again/crates/sqmod/src/main.rt"
compiled >"$room/out"
SLOW=20 PATH=$room/kit:/usr/bin:/bin env --default-signal=INT setsid "$again/sqmod" run >"$room/out" 2>"$room/err" &
job=$!
for _ in $(seq 100); do [ -s "$COMPILED" ] && break; sleep 0.05; done
kill -INT -- "-$job"
wait "$job"
expect 'interrupted' 'sqmod: interrupted' "$(grep -v compiling "$room/err")"
echo '// a source' >"$again/crates/sqmod/src/main.rt"
expect 'what was kept before' $'ran run\nstatus 0' "$(said without_rt "$again/sqmod" run)"
echo '// another source' >"$again/crates/sqmod/src/main.rt"
compiled >"$room/out"
expect 'after it was interrupted' $'ran run\nstatus 0' "$(said with_rt "$again/sqmod" run)"
expect 'it is compiled' 1 "$(compiled)"
expect 'nothing else is left' 1 "$(find "$again/out/checked" -mindepth 1 -maxdepth 1 | wc -l)"

# ---- its own words

usage=$("$here/sqmod" help)
expect 'prove with a word too many' "$usage"$'\nstatus 2' "$(said without_rt "$here/sqmod" prove nonsense)"
expect 'help' 'status 0' "$(said without_rt "$here/sqmod" --help | tail -1)"
expect 'help on a command' $'sqmod explain\nstatus 0' "$(said without_rt "$here/sqmod" help explain | sed -n '1p;$p')"
expect 'help on no command' 'status 2' "$(said without_rt "$here/sqmod" help nonsense | tail -1)"
expect 'no words' 'status 2' "$(said without_rt "$here/sqmod" | tail -1)"
expect 'the version' "sqmod $(cat "$root/VERSION")"$'\nstatus 0' "$(said without_rt "$here/sqmod" --version)"
expect 'the man page has what an installed program lacks' '' "$(grep -E '^(prove|install)' "$root/docs/sqmod.1")"

if [ $# != 0 ]; then
  for command in $(sed -n '/^\.SH SYNOPSIS/,/^\.SH DESC/p' "$root/docs/sqmod.1" | grep -A1 '^\.B sqmod' | grep -v '^\.B\|^--' | cut -d ' ' -f 1 | tr -d '\\'); do
    expect "the installed program has $command" '' "$("$1" "$command" --help 2>&1 | grep 'unrecognized subcommand')"
  done
fi

echo "Launcher: $tried outcomes, $wrong differ"
[ "$wrong" = 0 ]
