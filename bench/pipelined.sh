#!/usr/bin/env bash
# Serves 100,000 requests, reads and registrations mixed, as one connection of `nsd pipe`, and prints requests a second.
# Another number of requests may be given: bench/pipelined.sh 1000000
set -euo pipefail
script=${BASH_SOURCE[0]}
[[ $script == */* ]] || script=./$script
cd "${script%/*}/.."
exec python3 bench/pipelined.py "$@"
