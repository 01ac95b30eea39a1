#!/usr/bin/env bash
# Makes the Debian package, installs it in a clean root by dpkg, solves, verifies and draws there, tries the completion and the man pages, and
# removes it again. Not part of the gate. Programs by ZUKONAWI_PROGRAMS, as in ./install. Needs dpkg, and chroot as root; else the programs
# are run from outside.
#
#   bench/package.sh
set -eu
top=$(cd "$(dirname "$0")/.." && pwd)
work=$(mktemp -d)
trap 'rm -rf "$work"' EXIT
wrong=0
expect() { # WHAT IS WANTED
    if [ "$2" = "$3" ]; then echo "ok: $1"; else
        printf 'WRONG: %s\n  is:     %s\n  wanted: %s\n' "$1" "$2" "$3"
        wrong=1
    fi
}

"$top/package" "$work" >"$work/log" 2>&1 || { cat "$work/log"; exit 1; }
package=$(echo "$work"/zukonawi_*.deb)
echo "made $(basename "$package"), $(stat -c %s "$package") bytes"

root=$work/root
mkdir -p "$root/var/lib/dpkg/info" "$root/var/lib/dpkg/updates" "$root/tmp"
: >"$root/var/lib/dpkg/status"
: >"$root/var/lib/dpkg/available"
# the C library that the package depends on comes from this machine, below
at_root() { dpkg --root="$root" --force-depends --force-not-root --log=/dev/null "$@" >"$work/log" 2>&1 || { cat "$work/log"; exit 1; }; }
at_root --install "$package"
expect 'the state after the installation' "$(dpkg-query --admindir="$root/var/lib/dpkg" -W -f '${db:Status-Abbrev}' zukonawi)" 'ii '
(cd "$root" && find . -type f ! -path './var/*' | sort) >"$work/files"
expect 'files in the root' "$(wc -l <"$work/files")" "$(dpkg-deb --fsys-tarfile "$package" | tar t | grep -vc '/$')"

if [ "$(id -u)" = 0 ] && command -v chroot >/dev/null; then
    for library in $(ldd "$root/usr/bin/tspc" "$root/usr/bin/tspverify" "$root/usr/bin/tspview" | grep -o '/[^ :]*' | grep -v "^$root" | sort -u); do
        mkdir -p "$root/$(dirname "$library")"
        cp -L "$library" "$root/$library"
    done
    within() { chroot "$root" "$@"; }
    at=/tmp
else
    within() { "$root$1" "${@:2}"; }
    at=$root/tmp
fi
cp "$root/usr/share/doc/zukonawi/examples/square.tsp" "$root/tmp/"
expect 'solve' "$(within /usr/bin/tspc solve $at/square.tsp $at/proof $at/restart; echo $?)" $'OPTIMAL 40\nTOUR 1 2 3 4\n0'
expect 'tspverify' "$(within /usr/bin/tspverify $at/square.tsp $at/proof; echo $?)" $'VERIFIED 40\n0'
expect 'tspc verify' "$(within /usr/bin/tspc verify $at/square.tsp $at/proof; echo $?)" $'VERIFIED 40\n0'
expect 'tspview' "$(within /usr/bin/tspview $at/square.tsp $at/proof $at/svg; echo $?)" $'DRAWN 40\n0'
expect 'the picture' "$(tail -n 1 "$root/tmp/svg")" '</svg>'
expect 'no words' "$(within /usr/bin/tspverify; echo $?)" $'USAGE tspverify INSTANCE PROOF\n2'

complete_in_bash() ( # PROGRAM WORD..: what its completion offers for the last word
    . "$root/usr/share/bash-completion/completions/$1"
    COMP_WORDS=("$@") COMP_CWORD=$(($# - 1))
    compopt() { :; }
    "_$1"
    echo "${COMPREPLY[*]}"
)
expect 'completion of a command' "$(complete_in_bash tspc so)" solve
expect 'completion of an option' "$(complete_in_bash tspc solve a b c --gr)" --grunts
expect 'completion of a file' "$(cd "$root/usr/share/doc" && complete_in_bash tspverify zuk)" zukonawi

if command -v man >/dev/null; then
    for name in tspc tspverify tspview; do
        page=$root/usr/share/man/man1/$name.1.gz
        expect "man $name has no warnings" "$(MANROFFSEQ='' man --warnings -l "$page" 2>&1 >"$work/$name.txt" | head -3)" ''
        expect "man $name tells its status" "$(grep -c '^EXIT STATUS' "$work/$name.txt")" 1
    done
fi

at_root --purge zukonawi
expect 'files after the removal' "$(cd "$root" && while read -r file; do [ ! -e "$file" ] || echo "$file"; done <"$work/files")" ''
exit $wrong
