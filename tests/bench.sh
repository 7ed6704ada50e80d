#!/usr/bin/env bash
# Runs bench over its cases and fails where one went wrong: tests/bench.sh target/bin/bench crates/bench/stdin
set -eu
[ -s "$2" ] || {
    echo "bench: no cases in $2" >&2
    exit 1
}
cat <<'END'
A row for each case, and a second one where the answer is a line:

  operation   smooth, fit, scatter, start or line
  case        what was given: a case of document 01, or a line that document 000, 003 or 004 prints, by its name in
              tests/published/published.txt, as published or with what is put in so that it can be written
  gave        what the proved code answers
  should be   what was worked out without it; a case that differs ends with WRONG

END
output=$("$1" <"$2")
printf '%s\n' "$output"
[[ ${output##*$'\n'} =~ ^[1-9][0-9]*\ cases,\ 0\ wrong$ ]] || {
    echo 'bench: FAILED' >&2
    exit 1
}
