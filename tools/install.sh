#!/usr/bin/env bash
# Lays out the proved program and the libraries for host programs below a folder, as `./sqmod install` does it and a release has it.
# install.sh PREFIX: the program has to be built; the libraries are built now, from what was proved.
set -euo pipefail
root=$(dirname "$(dirname "$(readlink -f "$0")")")
prefix=$1
version=$(<"$root/VERSION")
room=$(mktemp -d)
trap 'rm -rf "$room"' EXIT

put() { install -D -m 644 "$1" "$prefix/$2"; }

# Writes the commit into a program, in place of the zeros that --version shows; a program of sources that no commit has keeps them.
name_commit() {
  local zeros commit
  zeros=$(printf '0%.0s' {1..40})
  if [ "$(LC_ALL=C grep -ao "commit $zeros" "$1" | wc -l)" != 1 ]; then
    echo "install.sh: the program has no one place for its commit" >&2
    exit 1
  fi
  if commit=$(git -C "$root" rev-parse HEAD 2>/dev/null) && [ -z "$(git -C "$root" status --porcelain --untracked-files=no)" ]; then
    LC_ALL=C sed -i "s/commit $zeros/commit $commit/" "$1"
  fi
}

python3 "$root/tools/build_library.py" "$room" >"$room/log"
install -D -m 755 "$root/crates/sqmod/out/sqmod" "$prefix/bin/sqmod"
name_commit "$prefix/bin/sqmod"

put "$root/host/sqmod.h" include/sqmod.h
put "$room/libsqmod.a" lib/libsqmod.a
put "$room/libsqmod.so" "lib/libsqmod.so.$version"
ln -sf "libsqmod.so.$version" "$prefix/lib/libsqmod.so.0"
ln -sf libsqmod.so.0 "$prefix/lib/libsqmod.so"
put "$root/host/sqmod.py" lib/python3/dist-packages/sqmod.py

cat >"$room/sqmod.pc" <<END
prefix=\${pcfiledir}/../..

Name: sqmod
Description: Sessions of SQL-92 modules, for programs in C and COBOL
Version: $version
Cflags: -I\${prefix}/include
Libs: -L\${prefix}/lib -lsqmod
END
put "$room/sqmod.pc" lib/pkgconfig/sqmod.pc

put "$root/docs/sqmod.1" share/man/man1/sqmod.1
python3 "$root/tools/make_completions.py" "$room/completions"
put "$room/completions/sqmod.bash" share/bash-completion/completions/sqmod
put "$room/completions/_sqmod" share/zsh/site-functions/_sqmod
put "$room/completions/sqmod.fish" share/fish/vendor_completions.d/sqmod.fish

for page in README.md CHANGELOG.md LICENSE NOTICES docs/{TOUR,LANGUAGE,COMING_FROM,STATUSES,SUITES,HOST,BROWSER}.md docs/{trace,browser}.png; do
  put "$root/$page" "share/doc/sqmod/$page"
done

# The page for browsers, where tools/build_page.py has built it of the sources as they are.
page=crates/sq_page_c/out/page/index.html
if [ -e "$root/$page" ] && [ -z "$(cd "$root" && find crates/*/src page examples/tour docs/TOUR.md tools/build_page.py -type f -newer $page -print -quit)" ]; then
  put "$root/$page" share/sqmod/page/index.html
fi

(cd "$root" && git ls-files examples 2>/dev/null || find examples -type f) | while read -r file; do
  put "$root/$file" "share/doc/sqmod/$file"
done
