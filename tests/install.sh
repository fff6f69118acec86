#!/usr/bin/env bash
# What is installed is enough to build a host, with the archive and with the shared library, and to read about it, and
# DESTDIR moves it without being written into it.
set -euo pipefail
cd "$(dirname "$0")/.."
scratch=$(mktemp -d)
trap 'rm -rf "$scratch"' EXIT
version=$(sed -n 's/^#define CHISELBROW_VERSION "\(.*\)"$/\1/p' include/chiselbrow.h)
soname=libchiselbrow.so.${version%%.*}

fail() {
    echo "install: $*" >&2
    exit 1
}

# The first line that a host says of the day of case 9.
says() {
    local came
    came=$("$@" 09 00 04 00 01 68 5C 20 00 | head -n 1)
    [ "$came" = 'day 2120808' ] || fail "$* says: $came"
}

make --silent install PREFIX="$scratch" DESTDIR=
export PKG_CONFIG_PATH=$scratch/lib/pkgconfig
[ "$(pkg-config --modversion chiselbrow)" = "${version:?}" ] || fail "another version than $version"
read -ra flags <<< "$(pkg-config --cflags --libs chiselbrow)"

compile=("${CC:-gcc}" -std=c11 examples/store.c)
"${compile[@]}" "${flags[@]}" -o "$scratch/shared"
readelf -d "$scratch/shared" | grep -qF "[$soname]" || fail "a host is not linked with $soname"
says env LD_LIBRARY_PATH="$scratch/lib" "$scratch/shared"
"${compile[@]}" -Wl,-Bstatic "${flags[@]}" -Wl,-Bdynamic -o "$scratch/static"
readelf -d "$scratch/static" | grep -qF libchiselbrow && fail "a host with the archive needs the shared library"
says "$scratch/static"

[ "$(readlink -f "$scratch/lib/libchiselbrow.so")" = "$(realpath "$scratch")/lib/libchiselbrow.so.$version" ] ||
    fail "libchiselbrow.so leads elsewhere"

says "$scratch/bin/store"
came=$(head -c 10 examples/case-9.bin | "$scratch/bin/chiselbrow")
[ "$came" = 'G 1094 5 1 2120808 38' ] || fail "the installed program says: $came"
[ -x "$scratch/bin/almanac" ] || fail "no almanac"
printf '\x0A\0\x02\0\x01\x46\x04\x05\0\x25' | "$scratch/bin/chiselbrow-renew" > "$scratch/renewed"
cmp "$scratch/renewed" <(printf '\x0A\0\x05\0\x01\x46\x04\x05\0\x26') || fail "the installed program renews otherwise"

man=$scratch/share/man
for page in man1/chiselbrow.1 man1/almanac.1 man1/chiselbrow-renew.1 man3/chiselbrow.3; do
    cmp -s "man/${page#*/}" "$man/$page" || fail "no $page, or another one"
done
for function in store convert export import day refusal leap_month cite_date cite_name cite_ordinal cite_day read_date \
                units_cut parts tag; do
    [ "$(cat "$man/man3/chiselbrow_$function.3")" = '.so man3/chiselbrow.3' ] || fail "no page for chiselbrow_$function"
done

make --silent install PREFIX=/usr DESTDIR="$scratch/root"
grep -qx 'prefix=/usr' "$scratch/root/usr/lib/pkgconfig/chiselbrow.pc" || fail "another prefix"
[ -e "$scratch/root/usr/lib/libchiselbrow.so" ] || fail "with DESTDIR libchiselbrow.so leads nowhere"
echo "install: a host builds with what is installed, with the archive and with the shared library"
