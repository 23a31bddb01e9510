#!/usr/bin/env bash
# Makes a release of the proved program: FOLDER/sqmod-VERSION-x86_64-linux.tar.gz and FOLDER/sqmod_VERSION_amd64.deb, of what
# tools/install.sh lays out, and prints their sizes and what a system must have.
# release.sh FOLDER: the program has to be proved and built, by ./sqmod prove or by .ci/run.
set -euo pipefail
root=$(dirname "$(dirname "$(readlink -f "$0")")")
if [ $# != 1 ]; then
  echo "Usage: release.sh FOLDER" >&2
  exit 2
fi
version=$(<"$root/VERSION")
mkdir -p "$1"
folder=$(readlink -f "$1")
room=$(mktemp -d)
trap 'rm -rf "$room"' EXIT
chmod 755 "$room"

# The newest version of glibc that a file asks for.
glibc_of() { objdump -T "$@" 2>/dev/null | grep -o 'GLIBC_[0-9.]*' | sort -uV | tail -n 1 | cut -d _ -f 2; }

name=sqmod-$version-x86_64-linux
"$root/tools/install.sh" "$room/$name"
glibc=$(glibc_of "$room/$name/bin/sqmod" "$room/$name/lib/libsqmod.so")
cat >"$room/$name/README" <<END
sqmod $version: SQL-92 modules (ISO/IEC 9075:1992, Entry level), for Linux on x86-64 with glibc $glibc or later.

bin/sqmod runs as it is, wherever this folder is:

    bin/sqmod run --schema share/doc/sqmod/examples/first/schema.sql --module share/doc/sqmod/examples/first/module.sql \\
      --script share/doc/sqmod/examples/first/script.txt

share/sqmod/page/index.html, where it is there, is sqmod for a browser: open it from where it is.

share/doc/sqmod has the pages and the examples, include, lib and lib/pkgconfig what host programs in C and COBOL need, and
lib/python3/dist-packages/sqmod.py is for Python. NOTICES, beside LICENSE in share/doc/sqmod, names what is linked in.
END
tar -C "$room" --owner=0 --group=0 -czf "$folder/$name.tar.gz" "$name"

package=$room/package
mkdir -p "$package/DEBIAN"
cp -a "$room/$name" "$package/usr"
rm "$package/usr/README"
chmod 755 "$package" "$package/usr"
cat >"$package/DEBIAN/control" <<END
Package: sqmod
Version: $version
Architecture: amd64
Section: database
Priority: optional
Maintainer: $(git -C "$root" log -1 --format='%an <%ae>')
Installed-Size: $(du -sk "$package/usr" | cut -f 1)
Depends: libc6 (>= $glibc)
Description: processor of SQL-92 modules, proved
 Runs modules of ISO/IEC 9075:1992, Entry level, as they are: procedures,
 cursors and transactions over tables in memory. With a library for host
 programs in C and COBOL, and a module for Python.
END
echo 'activate-noawait ldconfig' >"$package/DEBIAN/triggers"
dpkg-deb --root-owner-group --build "$package" "$folder/sqmod_${version}_amd64.deb" >/dev/null

(cd "$folder" && du -h --apparent-size "$name.tar.gz" "sqmod_${version}_amd64.deb")
echo "needs Linux on x86-64 with glibc $glibc or later"
