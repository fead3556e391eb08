#!/usr/bin/env bash
# Fills 1,000 nodes with 8 jobs of low priority, and then preempts half of it for 2 jobs of high priority, over one connection of
# `nsd pipe --drive`. Prints placements and evictions a second. Another number of jobs may be given: bench/preempt.sh 40
set -euo pipefail
script=${BASH_SOURCE[0]}
[[ $script == */* ]] || script=./$script
cd "${script%/*}/.."
exec python3 bench/driven.py preempt "$@"
