#!/usr/bin/env bash
# Tries install.sh in a folder of its own: what it writes and nothing else, C programs over the static and the shared library, the man page
# and the completion, which have the options that linkcheck --help has, all of them and no other; and that nothing is left after
# --uninstall. Ends with 1 at the first fault. Usage: install_test.sh
set -euo pipefail
cd "$(dirname "$0")/.."
export LC_ALL=C
work=$(mktemp -d)
trap 'rm -rf "$work"' EXIT
prefix=$work/prefix
version=$(< VERSION)

fail() {
    echo "install test: $*" >&2
    exit 1
}
files() { (cd "$1" && find . ! -type d | sort); }
due=(./bin/linkcheck ./include/misogbu/checker.h ./lib/libmisogbu.so ./lib/libmisogbu.so."${version%%.*}" ./lib/libmisogbu.so."$version"
    ./lib/pkgconfig/misogbu.pc ./lib/pkgconfig/misogbu-static.pc ./share/bash-completion/completions/linkcheck ./share/man/man1/linkcheck.1)

# ---- what is written

touch "$work/before"
mkdir "$work/home"
HOME=$work/home ./install.sh --prefix "$prefix"
for library in "$prefix"/lib/misogbu/*.a; do
    cmp "$library" "target/staticlib/$(basename "$library")"
    due+=("./lib/misogbu/$(basename "$library")")
done
for name in checker conversion measuring; do [ -f "$prefix/lib/misogbu/lib$name.a" ] || fail "lib$name.a is not installed"; done
diff <(printf '%s\n' "${due[@]}" | sort) <(files "$prefix") || fail "other files than are due, <, are written, >"
other=$(find . -path ./target -prune -o -path ./.git -prune -o -path './crates/*/out' -prune -o -newer "$work/before" -type f -print)
[ -z "$other" ] || fail "in the repository is written: $other"
[ -z "$(ls -A "$work/home")" ] || fail "something is written to the home folder"
./install.sh --destdir "$work/package" --prefix /usr
diff <(files "$prefix") <(files "$work/package/usr") || fail "other files are written with --destdir"
diff <(sed "s|^prefix=.*|prefix=/usr|" "$prefix/lib/pkgconfig/misogbu.pc") "$work/package/usr/lib/pkgconfig/misogbu.pc" ||
    fail "the destdir is in a file"
for arguments in --prefix "--prefix relative" --other "--destdir"; do
    got=0
    # shellcheck disable=SC2086 # several words
    ./install.sh $arguments 2> "$work/said" || got=$?
    [ "$got" = 64 ] || fail "$arguments: status $got"
done
mkdir -p "$work/full/bin/linkcheck/linkcheck"
got=0
./install.sh --prefix "$work/full" 2> "$work/said" || got=$?
if [ "$got" = 0 ] || [ ! -s "$work/said" ]; then fail "what can't be written is installed: status $got"; fi

# ---- C programs

package() { # NAME
    if command -v pkg-config > /dev/null; then
        PKG_CONFIG_PATH=$prefix/lib/pkgconfig pkg-config --cflags --libs "$1"
    else
        sed -n "s|\${libdir}|$prefix/lib|; s|\${includedir}|$prefix/include/misogbu|; s/^\(Cflags\|Libs\): //p" \
            "$prefix/lib/pkgconfig/$1.pc"
    fi
}
for kind in misogbu misogbu-static; do
    read -r -d '' -a words < <(package $kind) || true
    ${CC:-cc} -std=c11 -Wall -Wextra examples/buy.c "${words[@]}" -o "$work/$kind"
done
[ "$("$work/misogbu-static" examples/pump.txt)" = "buy:      0     0     0     0     0" ] || fail "buy over the static libraries"
if "$work/misogbu" examples/pump.txt > "$work/said" 2>&1; then fail "buy finds the shared library where it is not installed"; fi
[ "$(LD_LIBRARY_PATH=$prefix/lib "$work/misogbu" examples/pump.txt)" = "$("$work/misogbu-static" examples/pump.txt)" ] ||
    fail "buy over the shared library"
# The shared library has every function of the header that an archive has, and needs nothing but the C library.
nm -g --defined-only "$prefix"/lib/misogbu/*.a | awk '$2 == "T" { print $3 }' | sort > "$work/static"
nm -D --defined-only "$prefix/lib/libmisogbu.so" | awk '$2 == "T" { print $3 }' | sort > "$work/shared"
diff "$work/static" "$work/shared" || fail "the shared library, >, has other functions than the static ones, <"
grep -qx check_design "$work/shared" || fail "check_design is not in the shared library"
[ "$(readelf -d "$prefix/lib/libmisogbu.so" | sed -n 's/.*soname: \[\(.*\)\]/\1/p')" = "libmisogbu.so.${version%%.*}" ] || fail "the SONAME"
if readelf -d "$prefix/lib/libmisogbu.so" | grep -q TEXTREL; then fail "the shared library has to be changed as it is loaded"; fi
[ "$(LD_LIBRARY_PATH='' "$prefix/bin/linkcheck" --version)" = "linkcheck $version" ] || fail "linkcheck --version"

# ---- the man page and the completion

options() { grep -oE '(^|[^[:alnum:]_-])--?[a-z][a-z-]*' | grep -oE -e '--?[a-z][a-z-]*' | grep -E -e '^(--[a-z]|-[a-z]$)' | sort -u; }
"$prefix/bin/linkcheck" --help | options > "$work/help"
grep -qx -e --json "$work/help" || fail "no options are found in --help"
# shellcheck disable=SC2016
bash -c '. "$1"; complete -p linkcheck > /dev/null; COMP_WORDS=(linkcheck -) COMP_CWORD=1; _linkcheck; printf "%s\n" "${COMPREPLY[@]}"' \
    bash "$prefix/share/bash-completion/completions/linkcheck" 2> /dev/null | options > "$work/completed"
diff "$work/help" "$work/completed" || fail "the completion, >, has other options than --help, <"
page=$prefix/share/man/man1/linkcheck.1
grep -oE 'Fl -?[a-z][a-z-]*' "$page" | sed 's/^Fl /-/' | sort -u > "$work/page"
diff "$work/help" "$work/page" || fail "the man page, >, has other options than --help, <"
if command -v mandoc > /dev/null; then
    mandoc -Tlint -Wwarning "$page" || fail "the man page has faults"
fi
if command -v man > /dev/null; then
    man --warnings -l "$page" > "$work/text" 2> "$work/said" || fail "man can't show the page: $(cat "$work/said")"
    [ ! -s "$work/said" ] || fail "man says of the page: $(cat "$work/said")"
    grep -q 'EXIT STATUS' "$work/text" || fail "man shows no page"
fi

# ---- taking it away

./install.sh --prefix "$prefix" --uninstall
[ -z "$(files "$prefix")" ] || fail "left after --uninstall: $(files "$prefix")"
if [ -d "$prefix/lib/misogbu" ] || [ -d "$prefix/include/misogbu" ]; then fail "folders are left after --uninstall"; fi
[ -n "$(files "$work/package")" ] || fail "--uninstall has taken away what is elsewhere"

echo "install: ${#due[@]} files, programs over both libraries, man page and completion with $(wc -l < "$work/help") options: no fault"
