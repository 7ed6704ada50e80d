#!/usr/bin/env bash
# A fuzz run over the C boundary, bounded in time: run.sh SECONDS. Needs clang with libFuzzer and AddressSanitizer.
# What it finds and learns stays in target/fuzz.
set -eu
cd "$(dirname "$0")/../.."
seconds=${1:-120}
archive=${LINE_ARCHIVE:-$PWD/target/staticlib/libboundary.a}
clang=${CLANG:-clang}
command -v "$clang" >/dev/null || {
    echo "make fuzz: needs clang with libFuzzer (Debian: apt-get install clang)" >&2
    exit 1
}
out=$PWD/target/fuzz
mkdir -p "$out/corpus" "$out/seeds"

# the plain Rust implementation is instrumented, so that the fuzzer is led by its branches and comparisons
export CARGO_TARGET_DIR=$out/cargo
RUSTFLAGS='-Cpasses=sancov-module -Cllvm-args=-sanitizer-coverage-level=4
    -Cllvm-args=-sanitizer-coverage-inline-8bit-counters -Cllvm-args=-sanitizer-coverage-pc-table
    -Cllvm-args=-sanitizer-coverage-trace-compares' \
    cargo --offline build --quiet --release --manifest-path tests/fuzz/Cargo.toml
"$clang" -std=c11 -g -O1 -Wall -Wextra -Werror -fsanitize=fuzzer,address,undefined -fno-sanitize-recover=undefined \
    -Iinclude tests/fuzz/fuzz.c "$archive" "$CARGO_TARGET_DIR/release/libreference_c.a" \
    -lpthread -ldl -lm -o "$out/fuzz"

# seeds: the sample's block, cut to 4 blocks too, and its line as raw bytes, nothing for each of the other kinds, and bytes for
# files of lines, for stores and for a day
{ printf '\0\0\0\0\0' && cat examples/sample.blk; } >"$out/seeds/raw"
{ printf '\0\0\0\0\0\074\0\4\0' && head -c 538 examples/sample.blk | tail -c +5 && head -c 160 /dev/zero; } \
    >"$out/seeds/raw_short"
{ printf '\4\0\0\0\0' && head -c 113 crates/trackline/stdout; } >"$out/seeds/raw_line"
for kind in 1 2 5 10 14 16 24 26 30 32; do
    # shellcheck disable=SC2059
    printf "\\$kind" >"$out/seeds/kind$kind"
done
{ printf '\14' && head -c 4000 examples/week.cggtts; } >"$out/seeds/files"
{ printf '\16' && head -c 4000 examples/week.cggtts; } >"$out/seeds/views"
{ printf '\20' && cat examples/delays.store examples/delays.store; } >"$out/seeds/delays"
{ printf '\22' && cat examples/delays.store examples/delays.store; } >"$out/seeds/append"
{ printf '\24\2\0\0\0\0\0\0\0\20\0' && head -c 4000 examples/week.cggtts; } >"$out/seeds/day"

status=0
"$out/fuzz" -max_total_time="$seconds" -max_len=16000 -timeout=10 -print_final_stats=1 -artifact_prefix="$out/" \
    "$out/corpus" "$out/seeds" >"$out/log" 2>&1 || status=$?
grep -E '^(trackline_|stat::(number|average|peak)|DIFFERENT|SUMMARY|  )|ERROR|DONE' "$out/log" || tail -20 "$out/log"
[ "$status" -eq 0 ] || {
    echo "fuzz: FAILED, see target/fuzz/log; the input is the crash-* or leak-* file beside it" >&2
    exit "$status"
}
echo "fuzz: no difference and no fault"
