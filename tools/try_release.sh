#!/usr/bin/env bash
# Tries a release as somebody would who has nothing but it: in an empty root that has the C library alone, as an unprivileged user,
# README's first example from the tarball and from the package; a host program in C, by pkg-config; the tests of the module for
# Python; and the completions for bash.
# try_release.sh FOLDER: where tools/release.sh left the tarball and the package. As another user than root it can't make a root of
# its own: then it says so, and tries the same outside one.
set -euo pipefail
root=$(dirname "$(dirname "$(readlink -f "$0")")")
folder=$(readlink -f "$1")
version=$(<"$root/VERSION")
name=sqmod-$version-x86_64-linux
room=$(mktemp -d)
trap 'rm -rf "$room"' EXIT
chmod 755 "$room"

fail() {
  echo "try_release: $*" >&2
  exit 1
}

# The files of the C library that a program asks for, put below a folder.
put_c_library() {
  ldd "$1" | grep -o '/[^ ]*' | while read -r file; do
    mkdir -p "$2$(dirname "$file")"
    cp -L "$file" "$2$file"
  done
}

# Runs a program below a folder, as nobody and with this folder as its root, where that may be done.
run_in() {
  local top=$1 program=$2
  shift 2
  if [ "$(id -u)" = 0 ]; then
    chroot --userspec=65534:65534 "$top" "$program" "$@"
  else
    (cd "$top" && ".$program" "${@//\/usr/.\/usr}")
  fi
}

# Whether README's first example comes to its report from an installation at a path below a root, in five seconds.
try_first_example() {
  local top=$1 at=$2 first=$2/share/doc/sqmod/examples/first
  put_c_library "$top$at/bin/sqmod" "$top"
  SECONDS=0
  run_in "$top" "$at/bin/sqmod" run --schema "$first/schema.sql" --module "$first/module.sql" --script "$first/script.txt" >"$room/report" \
    || fail "$at: the first example ended with $?"
  cmp "$room/report" "$root/examples/first/report.txt" || fail "$at: the first example has another report"
  [ "$SECONDS" -lt 5 ] || fail "$at: the first example took $SECONDS seconds"
}

mkdir -p "$room/tarball/usr" "$room/package"
tar -C "$room/tarball/usr" --strip-components=1 -xzf "$folder/$name.tar.gz"
try_first_example "$room/tarball" /usr

dpkg-deb -x "$folder/sqmod_${version}_amd64.deb" "$room/package"
try_first_example "$room/package" /usr
needed=$(dpkg-deb -f "$folder/sqmod_${version}_amd64.deb" Depends)
[[ $needed == "libc6 (>= "*")" ]] || fail "the package depends on $needed"

at=$room/tarball/usr
readelf -d "$at/lib/libsqmod.so" | grep -q 'SONAME.*\[libsqmod\.so\.0\]' || fail "libsqmod.so has no soname"
words=$(PKG_CONFIG_PATH=$at/lib/pkgconfig pkg-config --cflags --libs sqmod) || fail "pkg-config does not find sqmod"
"$at/bin/sqmod" bind-c --module "$root/examples/first/module.sql" >"$room/first_bound.h" || fail "bind-c ended with $?"
# shellcheck disable=SC2086
cc -std=c99 -I"$room" "$root/examples/host/first.c" $words -o "$room/first"
LD_LIBRARY_PATH=$at/lib "$room/first" "$root"/examples/first/{schema,module}.sql >"$room/report" || fail "the host program ended with $?"
cmp "$room/report" "$root/examples/host/report.txt" || fail "the host program has another report"

SQMOD_LIBRARY=$at/lib/libsqmod.so.0 python3 -B "$root/host/tests/test_sqmod.py" 2>"$room/log" || {
  cat "$room/log" >&2
  fail "the tests of sqmod.py failed"
}

page=crates/sq_page_c/out/page/index.html
if [ -e "$root/$page" ]; then
  cmp "$root/$page" "$at/share/sqmod/page/index.html" || fail "the page for browsers is not that which was built"
fi

bash -c 'source "$1"; COMP_WORDS=(sqmod run --sc); COMP_CWORD=2; _sqmod; [ "${COMPREPLY[*]}" = "--schema --script" ]' _ \
  "$at/share/bash-completion/completions/sqmod" || fail "bash completes something else"
commit=$(git -C "$root" rev-parse HEAD)
logic=$(rt version | sed 's/.* //')
[ "$("$at/bin/sqmod" --version)" = "sqmod $version (commit $commit, proved with $logic)" ] || fail "the program has another version"

where="in an empty root, as nobody"
[ "$(id -u)" = 0 ] || where="not in an empty root, since that takes root"
echo "try_release: the tarball and the package passed ($where); $(sed -n 's/^Ran \([0-9]* tests\).*/\1/p' "$room/log") of sqmod.py"
