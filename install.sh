#!/usr/bin/env bash
# Installs linkcheck, its man page and completion, the header, and the proved libraries for C, one by one and as a shared library.
# Usage: install.sh [--prefix DIR] [--destdir DIR] [--uninstall]
#   --prefix DIR   where it will be, /usr/local if not given
#   --destdir DIR  put before every name, for a package that is put together elsewhere
#   --uninstall    takes away what this version installs there, and nothing else
# Needs a C compiler; the libraries are proved and made first if they aren't there, many minutes with the Rattle toolchain.
# Statuses: 64 wrong arguments; 1 something could not be made or written, with a message.
# shellcheck disable=SC2016 # what pkg-config reads has names of its own
set -euo pipefail
cd "$(dirname "$0")"
# The libraries, as crates.
libraries=(checker conversion measuring looking duty lent_desk)
prefix=/usr/local destdir='' uninstall=''

fail() {
    printf 'install: %s\n' "$2" >&2
    exit "$1"
}
while [ $# -gt 0 ]; do
    case $1 in
    --prefix | --destdir) [ $# -gt 1 ] || fail 64 "$1 needs a folder" ;;
    esac
    case $1 in
    --prefix) prefix=$2 && shift ;;
    --destdir) destdir=$2 && shift ;;
    --uninstall) uninstall=1 ;;
    *) fail 64 "$(printf %q "$1") is none of --prefix DIR, --destdir DIR, --uninstall" ;;
    esac
    shift
done
# The prefix goes into files that pkg-config and a linker read.
[[ $prefix =~ ^/[A-Za-z0-9/._+~-]*$ ]] || fail 64 "--prefix takes a name that begins with /, of letters, digits and / . _ + ~ -"
prefix=${prefix%/}
version=$(< VERSION)
[[ $version =~ ^[0-9]+\.[0-9]+\.[0-9]+$ ]] || fail 1 "VERSION is no version"
shared=libmisogbu.so.$version
soname=libmisogbu.so.${version%%.*}

bin=$prefix/bin
lib=$prefix/lib
own=$lib/misogbu
include=$prefix/include/misogbu
man=$prefix/share/man/man1
completion=$prefix/share/bash-completion/completions

if [ -n "$uninstall" ]; then
    for name in "${libraries[@]}"; do rm -f "$destdir$own/lib$name.a"; done
    rm -f "$destdir$bin/linkcheck" "$destdir$man/linkcheck.1" "$destdir$completion/linkcheck" "$destdir$include/checker.h"
    rm -f "$destdir$lib"/{"$shared","$soname",libmisogbu.so,pkgconfig/misogbu.pc,pkgconfig/misogbu-static.pc}
    for folder in "$own" "$include"; do if [ -d "$destdir$folder" ]; then rmdir "$destdir$folder"; fi; done
    exit 0
fi

linkcheck/build.sh
archives=()
tools/library.sh "${libraries[@]}"
for name in "${libraries[@]}"; do archives+=("target/staticlib/lib$name.a"); done
work=$(mktemp -d)
trap 'rm -rf "$work"' EXIT
${CC:-cc} -shared -Wl,-soname,"$soname" -Wl,-z,defs -Wl,-z,noexecstack -Wl,--whole-archive "${archives[@]}" -Wl,--no-whole-archive \
    -o "$work/$shared"

# A package for pkg-config: its name, what it is, and how to link with it.
package() {
    printf 'prefix=%s\nlibdir=${prefix}/lib\nincludedir=${prefix}/include/misogbu\n\n' "$prefix"
    printf 'Name: %s\nDescription: %s\nVersion: %s\nCflags: -I${includedir}\nLibs: %s\n' "$1" "$2" "$version" "$3"
}
package misogbu "The price link checker" '-L${libdir} -lmisogbu' > "$work/misogbu.pc"
package misogbu-static "The price link checker, to be linked in" "-L\${libdir}/misogbu ${libraries[*]/#/-l}" > "$work/misogbu-static.pc"

put() { install -D -m "$1" "$2" "$destdir$3"; }
put 755 target/bin/linkcheck "$bin/linkcheck"
put 644 include/checker.h "$include/checker.h"
put 644 linkcheck/linkcheck.1 "$man/linkcheck.1"
put 644 linkcheck/completion.bash "$completion/linkcheck"
for name in "${libraries[@]}"; do put 644 "target/staticlib/lib$name.a" "$own/lib$name.a"; done
put 755 "$work/$shared" "$lib/$shared"
ln -sf "$shared" "$destdir$lib/$soname"
ln -sf "$soname" "$destdir$lib/libmisogbu.so"
for name in misogbu misogbu-static; do put 644 "$work/$name.pc" "$lib/pkgconfig/$name.pc"; done
