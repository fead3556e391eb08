#!/usr/bin/env bash
# Runs the stored lines of `plays`, as `rt ci` built that program, under valgrind, and prints how often it allocated and freed. Ends
# with status 1 if it did not free a block, did what valgrind counts as an error, or wrote another output than the stored one.
set -euo pipefail
script=${BASH_SOURCE[0]}
[[ $script == */* ]] || script=./$script
cd "${script%/*}/../crates/plays"
log=$(mktemp)
trap 'rm -f "$log"' EXIT
valgrind --log-file="$log" --leak-check=full --show-leak-kinds=all --errors-for-leak-kinds=all --error-exitcode=1 \
    out/plays < stdin | cmp - stdout
sed -n 's/.*total heap usage: //p' "$log"
