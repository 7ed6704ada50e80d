#!/usr/bin/env bash
# The instructions of each part of the work, for the tables of docs/SPEED.md: valgrind counts one call of each on one
# block or line that is refused right behind the part, and the part is what that takes more than the part before.
set -eu
cd "$(dirname "$0")/../.."
command -v valgrind >/dev/null || {
    echo 'instructions: valgrind is not installed' >&2
    exit 1
}
cargo --offline build --release --quiet --manifest-path tests/speed/Cargo.toml
speed=${CARGO_TARGET_DIR:-tests/speed/target}/release/speed

# counted FUNCTION PART
counted() {
    valgrind --tool=callgrind --callgrind-out-file=/dev/null --toggle-collect="$1" "$speed" once "$2" 2>&1 |
        sed -n 's/^==[0-9]*== Collected : //p'
}

# table STAGES SUFFIX: the parts in that file of tests/speed/src, by the functions with that suffix
table() {
    printf '  %-42s %8s %10s\n' '' proved 'plain Rust'
    local proved=0 plain=0 now_proved now_plain part
    while read -r part; do
        now_proved=$(counted "speed_proved$2" "$part")
        now_plain=$(counted "speed_plain$2" "$part")
        printf '  %-42s %8d %10d\n' "$part" $((now_proved - proved)) $((now_plain - plain))
        proved=$now_proved
        plain=$now_plain
    done < <(sed -n 's/^    stage("\([^"]*\)".*/\1/p' "tests/speed/src/$1.rs")
    printf '  %-42s %8d %10d\n' all "$proved" "$plain"
}

echo 'a block'
table stages ''
echo 'a line read back'
table read_stages _read
