#!/bin/sh
# Installs header, archive and pkg-config file; `./install.sh --help` says how.
set -eu
export LC_ALL=C

say_usage() {
    cat <<USAGE
usage: [DESTDIR=FOLDER] $0 PREFIX
Installs include/murgolab.h, lib/libmurgolab.a and lib/pkgconfig/murgolab.pc below PREFIX, which may be relative to the
folder you are in. With DESTDIR they go below DESTDIR/PREFIX, to be moved later; the pkg-config file names PREFIX.
Where the archive is missing or older than the sources, \`tools/build archive\` makes it first, by the Rattle kit.
USAGE
}

refuse() {
    printf '%s: %s\n' "$0" "$1" >&2
    exit 1
}

case "$#:${1-}" in
1:--help) say_usage; exit ;;
1:-* | 1:) say_usage >&2; exit 2 ;;
1:/*) prefix=$1 ;;
1:*) prefix=$(pwd)/$1 ;;
*) say_usage >&2; exit 2 ;;
esac

# What `cc $(pkg-config --cflags murgolab)` hands to cc unaltered; other signs pkg-config drops or puts a `\` before.
case $prefix in
*[!A-Za-z0-9/._+,=@~-]*) refuse "a prefix has plain letters, digits and / . _ - + , = @ ~ only, not: $prefix" ;;
esac
home=$(cd "$(dirname "$0")" && pwd)
archive=$home/target/staticlib/libmurgolab.a
# An archive that came from elsewhere is installed without the kit, whatever its age.
newer() { find "$home/crates" -name out -prune -o -name '*.rt' -newer "$archive" -print; }
if [ ! -f "$archive" ] || [ -n "$(newer)" ]; then
    if command -v rt >/dev/null; then
        "$home/tools/build" archive >&2
    fi
    [ -f "$archive" ] || refuse "there is no archive, and no \`rt\` that makes it"
fi

folder=${DESTDIR-}$prefix
install -d "$folder/include" "$folder/lib/pkgconfig"
install -m 644 "$home/include/murgolab.h" "$folder/include/"
install -m 644 "$archive" "$folder/lib/"
sed "s|@PREFIX@|$prefix|" "$home/murgolab.pc.in" >"$folder/lib/pkgconfig/murgolab.pc"
