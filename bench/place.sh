#!/usr/bin/env bash
# Places 100 jobs of 1,000 allocations on 1,000 nodes, over one connection of `nsd pipe --drive`, and prints placements a second.
# Another number of jobs may be given: bench/place.sh 10
set -euo pipefail
script=${BASH_SOURCE[0]}
[[ $script == */* ]] || script=./$script
cd "${script%/*}/.."
exec python3 bench/driven.py place "$@"
