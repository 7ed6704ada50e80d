#!/usr/bin/env bash
# The Makefile's own promises: help names every target, bench fails where a case is wrong, clean removes target/ alone.
set -eu
cd "$(dirname "$0")/.."
scratch=$(mktemp -d)
trap 'rm -rf "$scratch"' EXIT
make=${MAKE:-make}

fail() {
    echo "make: FAILED: $1" >&2
    exit 1
}

# help
"$make" --no-print-directory help >"$scratch/help"
"$make" --no-print-directory | cmp - "$scratch/help" || fail 'make alone is not make help'
for target in $(sed -n 's/^\.PHONY: help/help/p' Makefile); do
    grep -Eq "^make $target  +[a-z]" "$scratch/help" || fail "help does not name $target"
done

# bench, over its own cases and over doctored ones: a wrong number, a wrong line, a cut record, no program at all
tests/bench.sh target/bin/bench crates/bench/stdin >"$scratch/right" || fail 'bench'
tail -n "$(wc -l <crates/bench/stdout)" "$scratch/right" | cmp - crates/bench/stdout || fail 'what bench prints'
grep -q '^  should be ' "$scratch/right" || fail 'bench does not explain its columns'
all=$(sed -n '$s/ cases, 0 wrong$//p' crates/bench/stdout)
doctored() {
    python3 - "$1" "$scratch/cases" <<'END'
import pathlib, sys
cases = bytearray(pathlib.Path('crates/bench/stdin').read_bytes())
at = {'number': 126, 'line': 240 + 127 + 40}.get(sys.argv[1])
if at is None:
    del cases[-1]
else:
    cases[at] ^= 1
pathlib.Path(sys.argv[2]).write_bytes(cases)
END
    ! tests/bench.sh target/bin/bench "$scratch/cases" >"$scratch/wrong" 2>&1 || fail "bench passes with a wrong $1"
    [ "$(grep -c '   WRONG$' "$scratch/wrong")" = 1 ] || fail "bench does not mark the wrong $1"
    grep -qx "$all cases, 1 wrong" "$scratch/wrong" || fail "bench does not count the wrong $1"
}
doctored number
doctored line
doctored record
! tests/bench.sh target/bin/bench /dev/null >"$scratch/wrong" 2>&1 || fail 'bench passes without its cases'
! tests/bench.sh true crates/bench/stdin >"$scratch/wrong" 2>&1 || fail 'bench passes with nothing printed'

# speed and instructions name the parts as docs/SPEED.md does
sed -n 's/^    stage("\([^"]*\)".*/\1/p' tests/speed/src/stages.rs tests/speed/src/read_stages.rs >"$scratch/parts"
sed -n '/^| Part |/,/^| all |/s/^| \([a-z][^|]*\) |.*/\1/p' docs/SPEED.md | grep -vx all | cmp - "$scratch/parts" ||
    fail 'the parts of docs/SPEED.md are not those of tests/speed'

# what is proved: a line for each crate, which of how many, with an rt that only says so; what is unchanged is counted and not said
mkdir "$scratch/rt"
cat >"$scratch/rt/rt" <<'END'
#!/bin/sh
echo "fn whole::magnitude: proved"
for crate in 'whole 0' 'limits 7' 'schedule 3'; do
    echo "crate ${crate% *}: modules loaded=57 checked=${crate#* }"
    echo "logic=proved functions=1"
done
[ ! -e "${0%/*}/fails" ] || exit 1
END
chmod +x "$scratch/rt/rt"
PATH=$scratch/rt:$PATH tools/prove "$scratch/log" check labels >"$scratch/said"
printf '  limits is proved, 2 of 4\n  schedule is proved, 3 of 4\n' | cmp - "$scratch/said" || fail 'the crates that are proved'
grep -qx 'fn whole::magnitude: proved' "$scratch/log" || fail "what rt prints is not in the log"
touch "$scratch/rt/fails"
! PATH=$scratch/rt:$PATH tools/prove "$scratch/log" check labels >/dev/null 2>"$scratch/said" || fail 'a proof that fails goes unnoticed'
grep -qx 'fn whole::magnitude: proved' "$scratch/said" || fail 'a proof that fails is not shown'
[ "$(sed -n '/^[a-z]*:/p' crates.txt | wc -l)" -gt 20 ] || fail 'crates.txt'

# the gate: what rt ci says is said, its last line last; where it fails, or a must-fail edit is bad, the gate fails
mkdir "$scratch/gate"
gate() {
    printf '#!/bin/sh\n[ "$*" = ci ] || exit 9\necho "%s"\necho "4 passed, %d failed"\nexit %d\n' "$1" "$2" "$2" >"$scratch/rt/rt"
    (cd "$scratch/gate" && PATH=$scratch/rt:$PATH "$here/tools/gate") >"$scratch/said" 2>"$scratch/wrong"
}
here=$PWD
gate 'rt: ok; handles allowed: none; must-fail edits: 7 refused; every proof was done' 0 || fail 'the gate fails where rt ci passes'
[ "$(tail -n 1 "$scratch/said")" = '4 passed, 0 failed' ] || fail "the gate's last line"
! gate 'rt: ok; handles allowed: none; must-fail edits: 6 refused, 1 bad; every proof was done' 0 || fail 'the gate passes a bad edit'
! gate 'rt: one is not proved' 1 || fail 'the gate passes what rt ci does not'

# no rt on the path: a plain message, and status 2, from make too
mkdir "$scratch/bare"
for tool in awk cat cut echo find grep ls make mkdir realpath rm sed sh sort test touch tr uname wc df mktemp cp chmod env; do
    at=$(command -v "$tool") && case $at in /*) ln -s "$at" "$scratch/bare/$tool" ;; esac
done
for target in proofs bench; do
    ! PATH=$scratch/bare "$make" --no-print-directory "$target" >"$scratch/said" 2>&1 || fail "make $target without rt"
    grep -q "there is no 'rt' on the path. It is the command of the Rattle kit" "$scratch/said" || fail "what make $target says without rt"
done

# run: of a refused block it says what the number means and who says more; the answer alone goes to standard output
tools/run target/bin/trackline examples/sample.blk 2>"$scratch/said" | cmp - crates/trackline/stdout || fail 'run'
[ ! -s "$scratch/said" ] || fail 'run says something of an accepted block'
head -c 100 examples/sample.blk >"$scratch/cut.blk"
tools/run target/bin/trackline "$scratch/cut.blk" >"$scratch/answer" 2>"$scratch/said"
printf 'refused 11\r\n' | cmp - "$scratch/answer" || fail 'what run prints of a refused block'
grep -qx 'refused 11: the block is under 4 bytes or not as long as its sizes make it.' "$scratch/said" || fail 'what the number means'
grep -q "'cggtts check $scratch/cut.blk' says what is to blame" "$scratch/said" || fail 'run does not name cggtts check'
for number in 1 2 3 4 5 6 7 8 9 11; do
    printf '#!/bin/sh\ncat >/dev/null; printf "refused %d\\r\\n"\n' $number >"$scratch/refuses"
    chmod +x "$scratch/refuses"
    tools/run "$scratch/refuses" examples/sample.blk 2>&1 >/dev/null | grep "^refused $number: [a-zA-Z]" | grep -qv ': the number is ' || fail "refusal $number has no meaning"
done

# a number without a meaning is not sent to cggtts check, and cggtts has the same words for it
printf '#include "cggtts.h"\n#include <stdlib.h>\nint flush_output(void) { return 0; }\nint main(int n, char **word) { report_refusal(word[n - 1], (uint32_t)atoi(word[n - 1])); }\n' >"$scratch/report.c"
${CC:-cc} -Iinclude -Icggtts "$scratch/report.c" cggtts/messages.c -o "$scratch/report"
without_meaning() {
    printf '#!/bin/sh\ncat >/dev/null; printf "refused %d\\r\\n"\n' "$1" >"$scratch/refuses"
    tools/run "$scratch/refuses" examples/sample.blk 2>&1 >/dev/null | cmp - <(echo "refused $1: the number is $2.") || fail "what run says of $1"
    "$scratch/report" "$1" 2>&1 | cmp - <(echo "$1: refused $1: the number is $2") || fail "what cggtts says of $1"
}
without_meaning 10 retired
for number in 0 26 99 100; do
    without_meaning $number 'unknown to this version'
done

# clean, in a folder of its own
mkdir -p "$scratch/clean/target/bin" "$scratch/clean/crates/one/out/seed" "$scratch/clean/crates/one/src"
cp Makefile "$scratch/clean"
"$make" --no-print-directory -C "$scratch/clean" clean >/dev/null
[ "$(cd "$scratch/clean" && find . | sort | xargs)" = '. ./Makefile ./crates ./crates/one ./crates/one/src' ] || fail 'make clean'
echo "make: help names every target, bench fails where it should, proving and refusals are told, clean removes what was built"
