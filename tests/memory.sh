#!/bin/sh
# Prints the folder in memory that the prover may put its files in, or nothing where there is none that will do.
# For a crate the prover writes about a thousand small files, 100 MB together, to TMPDIR and removes them, and rt runs the programs from there:
# so the folder needs 1 GB of room, and what lies in it has to be executable.
folder=/dev/shm
[ -d "$folder" ] && [ -w "$folder" ] || exit 0
[ "$(df -Pk "$folder" | awk 'NR == 2 { print $4 }')" -ge 1000000 ] || exit 0
trial=$(mktemp "$folder/trial.XXXXXX") || exit 0
cp /bin/true "$trial" && chmod 755 "$trial" && "$trial" && echo "$folder"
rm -f "$trial"
