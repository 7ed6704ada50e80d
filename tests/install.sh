#!/usr/bin/env bash
# Installs into a temporary folder and uses what was installed as a receiver's programmer and a technician do.
set -eu
cd "$(dirname "$0")/.."
scratch=$(mktemp -d)
trap 'rm -rf "$scratch"' EXIT
prefix=$scratch/prefix
expected=$PWD/crates/trackline/stdout
make=${MAKE:-make}
cc=${CC:-cc}

fail() {
    echo "install: FAILED: $1" >&2
    exit 1
}

"$make" --no-print-directory install PREFIX="$prefix" DESTDIR= >"$scratch/log" 2>&1 || {
    cat "$scratch/log" >&2
    fail 'make install'
}
# what is built is installed with one line
env -u MAKEFLAGS -u MAKELEVEL "$make" --no-print-directory install PREFIX="$prefix" DESTDIR= >"$scratch/log" 2>&1
printf 'installed below %s: %d files\n' "$prefix" "$(find "$prefix" -type f -o -type l | wc -l)" | cmp - "$scratch/log" ||
    fail 'make install is not quiet'

# the program and the tool
"$prefix/bin/hireblock" pack examples/sample.txt | "$prefix/bin/trackline" | cmp - "$expected"
"$prefix/bin/hireblock" show examples/sample.blk >"$scratch/sample.txt"
"$prefix/bin/cggtts" line "$prefix/share/trackline/examples/sample.blk" | cmp - "$expected"
CGGTTS=$prefix/bin/cggtts python3 tests/cggtts/test_cggtts.py >"$scratch/log" 2>&1 || {
    cat "$scratch/log" >&2
    fail 'the installed cggtts'
}
# byte for byte what the other tests of cggtts try
cmp target/cggtts/cggtts "$prefix/bin/cggtts" || fail 'the installed cggtts is another one'

cmp examples/week.cggtts "$prefix/share/trackline/examples/week.cggtts"

# the installed paper's run on the installed examples, and its picture
(
    cd "$prefix/share/trackline/examples"
    sed -n 's/^    \$ \(cggtts view .*\)/\1/p' "$prefix/share/doc/trackline/COMMON-VIEW.md" >"$scratch/commands"
    [ "$(wc -l <"$scratch/commands")" -eq 2 ]
    PATH=$prefix/bin:$PATH bash -eu "$scratch/commands" >"$scratch/report"
    sed -n '/^    \$ cggtts view/,/^$/ s/^    \([^$].*\)/\1/p' "$prefix/share/doc/trackline/COMMON-VIEW.md" | cmp - "$scratch/report"
    cmp common-view.svg "$prefix/share/doc/trackline/common-view.svg"
    rm common-view.svg
) & wait $! || fail "the run in COMMON-VIEW.md"
(
    cd "$prefix/share/trackline/examples/shared"
    sed -n 's/^    \$ \(cggtts .*\)/\1/p' "$prefix/share/doc/trackline/SHARED-OFFSET.md" | grep -v mine >"$scratch/commands"
    [ "$(wc -l <"$scratch/commands")" -eq 5 ]
    PATH=$prefix/bin:$PATH bash -eu "$scratch/commands" | tr -d '\r' >"$scratch/report"
    sed -n 's/^    \([^$].*\)/\1/p' "$prefix/share/doc/trackline/SHARED-OFFSET.md" | cmp - "$scratch/report"
    for track in one two one-plus-10 two-plus-10 one-plus-50 two-plus-50 one-plus-300 two-plus-300; do
        "$prefix/bin/hireblock" pack $track.txt | cmp - $track.blk
        "$prefix/bin/cggtts" line $track.blk | cmp - $track.cggtts
    done
) & wait $! || fail "the runs in SHARED-OFFSET.md"

# the installed tool follows the installed worked track, and finds every figure of the installed paper right but those that the sources count
follow=$prefix/share/trackline/tools/lastdigit
"$follow" | cmp - <(tools/lastdigit) || fail 'the installed lastdigit'
"$follow" --check "$prefix/share/doc/trackline/LAST-DIGIT.md" >"$scratch/log" || fail 'the installed LAST-DIGIT.md'
grep -q '^lastdigit: 3 rows of the table of shares are left out' "$scratch/log" || fail 'the installed lastdigit says what it leaves out'
"$follow" --program "$prefix/bin/trackline" >"$scratch/log" || fail 'the installed worked track'
"$follow" --svg "$scratch/last-digit.svg" && cmp "$scratch/last-digit.svg" "$prefix/share/doc/trackline/last-digit.svg" ||
    fail 'the installed picture of the last digit'
"$prefix/bin/hireblock" pack "$prefix/share/trackline/examples/worked.txt" | cmp - "$prefix/share/trackline/examples/worked.blk"
[ -z "$(find "$prefix" -name __pycache__)" ] || fail 'the installed lastdigit leaves something behind'

# the version is one everywhere
version=$(sed -n 's/^VERSION := //p' Makefile)
[ "$("$prefix/bin/cggtts" -V)" = "cggtts $version" ] && [ "$("$prefix/bin/hireblock" -V)" = "hireblock $version" ] || fail 'the version'
printf '#include <trackline.h>\nversion TRACKLINE_VERSION TRACKLINE_VERSION_MAJOR TRACKLINE_VERSION_MINOR TRACKLINE_VERSION_PATCH\n' |
    "$cc" -E -P -I"$prefix/include" - | grep -qx "version \"$version\" $(echo "$version" | tr . ' ')" || fail 'the version in the header'
cmp docs/REFUSALS.md "$prefix/share/doc/trackline/REFUSALS.md"
cmp docs/TRUST.md "$prefix/share/doc/trackline/TRUST.md"
cmp docs/HIRE-BLOCK.md "$prefix/share/doc/trackline/HIRE-BLOCK.md"
cmp docs/DELAYS.md "$prefix/share/doc/trackline/DELAYS.md"
cmp docs/VERSION-01.md "$prefix/share/doc/trackline/VERSION-01.md"

# the installed paper's commands on delays, as its table and its run have them, among the installed examples
(
    cp -r "$prefix/share/trackline/examples" "$scratch/delays"
    cd "$scratch/delays"
    paper=$prefix/share/doc/trackline/DELAYS.md
    sed -n '/^## How to use it/,/^## What/ s/^| [a-z].* | `\([^`]*\)`.*|$/\1/p' "$paper" >"$scratch/commands"
    [ "$(wc -l <"$scratch/commands")" -eq 5 ]
    PATH=$prefix/bin:$PATH bash -eu "$scratch/commands" >/dev/null 2>&1
    cmp dated.blk worked.blk
    PATH=$prefix/bin:$PATH cggtts store --show delays.store | grep -q '^61072 .* 38702 .*# 2026-02-01$'
    cp "$prefix/share/trackline/examples/delays.store" .
    sed -n 's/^    \$ \(cggtts .*\)/\1/p' "$paper" >"$scratch/commands"
    PATH=$prefix/bin:$PATH bash -eu "$scratch/commands" >"$scratch/report"
    sed -n '/^    \$ cggtts/,/^$/ s/^    \([^$].*\)/\1/p' "$paper" | cmp - "$scratch/report"
    grep -F -f <(sed -n '/^    58849/,/^$/ s/^    //p' "$paper" | grep .) delays.txt | wc -l | grep -qx 5
) & wait $! || fail "the commands in DELAYS.md"

# the installed paper's commands on version 01, among the installed examples
(
    cp -r "$prefix/share/trackline/examples" "$scratch/old"
    cd "$scratch/old"
    sed -n 's/^    \$ \(cggtts\|cmp\) /\1 /p' "$prefix/share/doc/trackline/VERSION-01.md" >"$scratch/commands"
    [ "$(wc -l <"$scratch/commands")" -eq 9 ]
    PATH=$prefix/bin:$PATH bash -eu "$scratch/commands" 2>"$scratch/report"
    sed -n 's/^    cggtts: /cggtts: /p' "$prefix/share/doc/trackline/VERSION-01.md" >"$scratch/told"
    [ "$(wc -l <"$scratch/told")" -eq 1 ]
    grep -qxF -f "$scratch/told" "$scratch/report"
) & wait $! || fail "the commands in VERSION-01.md"

# the example of trackline(3), with a line of the examples
(
    cd "$scratch/old"
    sed -n '/^#include <trackline.h>$/,/^\.fi$/ p' "$prefix/share/man/man3/trackline.3" | sed '$d' >there.c
    cat >>there.c <<'END'
#include <stdio.h>
#include <string.h>

int main(void)
{
    uint8_t line[TRACKLINE_LINE_BYTES], restored[TRACKLINE_LINE_BYTES], old[TRACKLINE_OLD_BYTES];
    if (fread(line, 1, sizeof line, stdin) != sizeof line)
        return 2;
    memcpy(restored, line, sizeof line);
    if (there_and_back(restored, old) != TRACKLINE_ACCEPTED || memcmp(restored, line, sizeof line) != 0)
        return 1;
    return fwrite(old, 1, sizeof old, stdout) != sizeof old;
}
END
    "$cc" -std=c11 -Wall -Wextra -Werror -I"$prefix/include" there.c "$prefix/lib/libtrackline.a" -o there
    grep ^G week.cggtts | head -1 | ./there >there.v01
    head -c 103 week.v01 | cmp - there.v01
) & wait $! || fail "the example of trackline(3)"

# each command of the README from setting up to C, as it is written, in a home of its own
sed -nE 's/^    (\$ )?((make install|export|cp|cd|cggtts|cmp|cc|\.\/receiver)( .*)?)$/\2/p' README.md >"$scratch/commands"
[ "$(wc -l <"$scratch/commands")" -eq 14 ] || fail "the README's commands"
mkdir "$scratch/home"
HOME=$scratch/home bash -eu "$scratch/commands" >"$scratch/log" 2>&1 || {
    cat "$scratch/log" >&2
    fail "the README's commands"
}
[ "$(grep -cxF "$(cat "$expected")" "$scratch/log")" -eq 2 ] || fail "the README's commands do not print the sample line twice"

# the command in the example's own head
(
    cd "$prefix/share/trackline/examples"
    sed -n 's/^ \*     //p' receiver.c >"$scratch/commands"
    [ "$(wc -l <"$scratch/commands")" -eq 2 ]
    PKG_CONFIG_PATH=$prefix/lib/pkgconfig bash -eu "$scratch/commands"
    env -u LD_LIBRARY_PATH ./receiver | cmp - "$expected"
    rm receiver
) & wait $! || fail "the command in the head of receiver.c"

# the command in the head of the example of a day, and its call
(
    cd "$prefix/share/trackline/examples"
    sed -n 's/^ \*     //p' day.c >"$scratch/commands"
    [ "$(wc -l <"$scratch/commands")" -eq 2 ]
    PKG_CONFIG_PATH=$prefix/lib/pkgconfig bash -eu "$scratch/commands"
    env -u LD_LIBRARY_PATH ./day oneday.blk | cmp - oneday.cggtts
    rm day
) & wait $! || fail "the command in the head of day.c"

# the commands in the samples' own heads, with the installed programs
(
    cd "$prefix/share/trackline/examples"
    for sample in sample short; do
        sed -n 's/^#     \(hireblock\|trackline\) /\1 /p' $sample.txt >"$scratch/commands"
        [ "$(wc -l <"$scratch/commands")" -eq 2 ]
        PATH=$prefix/bin:$PATH bash -eu "$scratch/commands" >"$scratch/line"
        cmp track.blk $sample.blk
        rm track.blk
        "$prefix/bin/cggtts" line $sample.blk | cmp - "$scratch/line"
    done
    cut -c21-24 "$scratch/line" | grep -qx 0300
    "$prefix/bin/cggtts" line sample.blk | cmp - "$expected"
) & wait $! || fail "the commands in the heads of the samples"

# the commands in the head of the example day
(
    cp -r "$prefix/share/trackline/examples" "$scratch/oneday"
    cd "$scratch/oneday"
    rm oneday.blk oneday.cggtts
    sed -n 's/^#     \(hireblock\|cggtts\) /\1 /p' oneday.txt >"$scratch/commands"
    [ "$(wc -l <"$scratch/commands")" -eq 2 ]
    PATH=$prefix/bin:$PATH bash -eu "$scratch/commands"
    cmp oneday.blk "$prefix/share/trackline/examples/oneday.blk"
    cmp oneday.cggtts "$prefix/share/trackline/examples/oneday.cggtts"
) & wait $! || fail "the commands in the head of oneday.txt"

# what the installed papers name is there: no link leads out of the folder, and no path is that of the sources
for paper in "$prefix"/share/doc/trackline/*.md; do
    ! grep -n '](\.\./' "$paper" || fail "$(basename "$paper") links to the sources"
done
! grep -n 'docs/' "$prefix/include/trackline.h" || fail 'the header names a path of the sources'
papers=$(sed -n 's|.* \(share/doc/[A-Za-z0-9/-]*\.md\).*|\1|p' "$prefix/include/trackline.h")
[ "$(wc -w <<<"$papers")" -eq 3 ] || fail "the header names these papers: $papers"
for paper in $papers; do
    [ -f "$prefix/$paper" ] || fail "the header names $paper, which is not installed"
done

# the libraries: first the shared one, then the archive
export PKG_CONFIG_PATH=$prefix/lib/pkgconfig
read -ra cflags <<<"$(pkg-config --cflags trackline)"
read -ra libs <<<"$(pkg-config --libs trackline)"
strict=(-std=c11 -O2 -Wall -Wextra -Werror -pedantic)
"$cc" "${strict[@]}" "${cflags[@]}" examples/receiver.c "${libs[@]}" -o "$scratch/shared"
LD_LIBRARY_PATH=$prefix/lib "$scratch/shared" | cmp - "$expected"
LD_LIBRARY_PATH=$prefix/lib ldd "$scratch/shared" | grep -qF "libtrackline.so.1 => $prefix/lib/libtrackline.so.1" ||
    fail 'the example does not use the shared library'
"$cc" "${strict[@]}" "${cflags[@]}" examples/receiver.c -Wl,-Bstatic "${libs[@]}" -Wl,-Bdynamic -o "$scratch/static"
"$scratch/static" | cmp - "$expected"
! ldd "$scratch/static" | grep -q trackline || fail 'the example does not use the archive'
pkg-config --exact-version "$(sed -n 's/^VERSION := //p' Makefile)" trackline || fail 'the version in trackline.pc'

# what the shared library exports and needs
exports=$(nm -D --defined-only "$prefix/lib/libtrackline.so" | awk '{print $3}' | sort | xargs)
[ "$exports" = 'trackline_append trackline_block trackline_comment trackline_day trackline_delays trackline_down trackline_line trackline_merge trackline_path trackline_read trackline_start trackline_up trackline_view' ] || fail "the shared library exports: $exports"
needs=$(ldd "$prefix/lib/libtrackline.so" | awk '{print $1}' | grep -vE '^(linux-vdso|libc|/lib.*/ld-linux|statically)' || true)
[ -z "$needs" ] || fail "the shared library needs: $needs"

# the manual pages: every one is installed, and none has a fault
for source in man/*.[1-8]; do
    page=man${source##*.}/$(basename "$source")
    cmp "$source" "$prefix/share/man/$page" || fail "$page is not installed"
    command -v man >/dev/null || continue
    MANWIDTH=80 man --warnings -M "$prefix/share/man" "${source##*.}" "$(basename "${source%.*}")" \
        >"$scratch/page" 2>"$scratch/warnings" || fail "$page can't be read: $(cat "$scratch/warnings")"
    [ ! -s "$scratch/warnings" ] || fail "$page: $(cat "$scratch/warnings")"
    grep -q "$(basename "$source" | sed 's/\..*//')" "$scratch/page" || fail "$page is empty"
    # what a program does stands at the head of its page, with an example
    case $page in man1/*) head -n 22 "$scratch/page" | grep -q '^ *\$ ' || fail "$page has no example at its head" ;; esac
done
for program in "$prefix"/bin/*; do
    [ -f "$prefix/share/man/man1/$(basename "$program").1" ] || fail "$(basename "$program") has no manual page"
done

# a package is staged under DESTDIR and speaks of its own prefix; what is built is installed without the prover
mkdir "$scratch/path"
printf '#!/bin/sh\necho "rt is called" >&2\nexit 1\n' >"$scratch/path/rt"
chmod +x "$scratch/path/rt"
PATH=$scratch/path:$PATH "$make" --no-print-directory install PREFIX=/usr DESTDIR="$scratch/stage" >"$scratch/log" 2>&1 || {
    cat "$scratch/log" >&2
    fail 'make install of what is built'
}
for blank in 'a prefix' ''; do
    for target in install uninstall; do
        ! "$make" --no-print-directory $target PREFIX="$blank" DESTDIR="$scratch/blank" >"$scratch/log" 2>&1 ||
            fail "make $target with the prefix '$blank'"
        grep -q 'has to be one folder without blanks' "$scratch/log" || fail "make $target does not name the prefix '$blank'"
    done
done
[ ! -e "$scratch/blank" ] || fail 'make install with a blank writes something'
(cd "$prefix" && find . -type f -o -type l) | sort >"$scratch/installed"
(cd "$scratch/stage/usr" && find . -type f -o -type l) | sort | diff "$scratch/installed" - || fail 'DESTDIR'
grep -qx 'prefix=/usr' "$scratch/stage/usr/lib/pkgconfig/trackline.pc" || fail 'the prefix in trackline.pc'

# uninstall removes what was installed and nothing else, and may be called again
foreign='./bin/other ./lib/libtrackline.so.2 ./share/man/man1/other.1'
(cd "$prefix" && touch $foreign && find . -type d | sort >"$scratch/folders")
for _ in 1 2; do
    "$make" --no-print-directory uninstall PREFIX="$prefix" DESTDIR= >"$scratch/log" 2>&1 || fail 'make uninstall'
    left=$(cd "$prefix" && find . -type f -o -type l | sort | xargs)
    [ "$left" = "$foreign" ] || fail "uninstall leaves $left"
    (cd "$prefix" && find . -type d | sort) | cmp - "$scratch/folders" || fail 'uninstall removes a folder'
done
"$make" --no-print-directory uninstall PREFIX=/usr DESTDIR="$scratch/stage" >"$scratch/log" 2>&1 || fail 'make uninstall'
left=$(find "$scratch/stage" -type f -o -type l)
[ -z "$left" ] || fail "uninstall leaves $left"
"$make" --no-print-directory uninstall PREFIX="$scratch/never" DESTDIR= >"$scratch/log" 2>&1 || fail 'make uninstall of nothing'
echo "install: $(wc -l <"$scratch/installed") files, all of them work, and uninstall removes them"
