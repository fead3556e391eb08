#!/bin/sh
# How many reads of a job `nsd serve` answers in a second, each of them an entry of its log, and beside it how many times nginx
# answers a body of the same length that it has in memory.
#
#     bench/serve.sh [PROGRAM [SECONDS [WORDS..]]]
#
# PROGRAM is the built program: crates/nsd/out/nsd if none is given. WORDS are given to `nsd serve` as well: with
# `--rotate 100000` its log is given out, as it is where a server runs for long. wrk sends requests to both over 4 connections that
# stay open, on this machine, in turn, three times for SECONDS each (5 if none are given). Both have 4 threads for connections:
# nginx 4 processes of one thread. It prints last the median of each, the quotient of the two, what a request took of either in
# processor time and in sleeps of a thread, and by how much each read made the memory of `nsd serve` grow. Each read is an entry of
# the log, of some 700 bytes: 15 seconds at 100,000 a second take 1 GB. So the log's limit has to be more than the requests of all
# three turns, or reads are answered 503 and nothing is measured. 10,000,000 entries would take 7 GB. Packages of Debian: wrk,
# nginx-light, curl, procps.
set -eu
root=$(CDPATH='' cd -- "$(dirname -- "$0")/.." && pwd)
program=${1:-$root/crates/nsd/out/nsd}
seconds=${2:-5}
if [ $# -gt 2 ]; then shift 2; else set --; fi
limit=10000000
body='{"Constraints":[],"CreateIndex":1,"ID":"web","JobModifyIndex":1,"Namespace":"default","NodePool":"default","Priority":50,"Status":"pending","Stop":false,"TaskGroups":[{"Count":1,"EphemeralDisk":{"SizeMB":300},"Name":"g","Tasks":[{"Name":"t","Resources":{"CPU":100,"MemoryMB":300}}]}],"Type":"service","Version":0}'
folder=$(mktemp -d)
server='' nginx=''
trap 'kill $server $nginx 2>/dev/null || true; wait; rm -rf "$folder"' EXIT
trap 'exit 1' HUP INT TERM

[ -x "$program" ] || { echo "there is no program $program: ./nsd --help builds it" >&2; exit 1; }
for tool in wrk curl pgrep; do
    command -v $tool > "$folder/which" || { echo "$tool is not installed" >&2; exit 1; }
done

# Waits a tenth of a second for a process to get ready, a hundred times at most. Its errors are in the file.
pause() {
    tries=$((tries + 1))
    if [ $tries -gt 100 ] || ! kill -0 "$1" 2>/dev/null; then
        cat "$2" >&2
        echo "$3 does not serve" >&2
        exit 1
    fi
    sleep 0.1
}

# Starts `nsd serve` at the address that it then says, registers the job and reads it.
start_server() {
    : > "$folder/errors"
    "$program" serve --listen 127.0.0.1:0 --bootstrap root --connections 4 --log-limit $limit "$@" 2>> "$folder/errors" > "$folder/log" &
    server=$!
    tries=0
    until address=$(sed -n 's/^listening //p' "$folder/errors") && [ -n "$address" ]; do
        pause $server "$folder/errors" "$program"
    done
    curl -sS -H 'X-Nomad-Token: root' -o "$folder/made" \
        -d '{"Job":{"ID":"web","TaskGroups":[{"Name":"g","Tasks":[{"Name":"t"}]}]}}' "http://$address/v1/jobs"
    read=$(curl -sS -H 'X-Nomad-Token: root' "http://$address/v1/job/web")
    [ "$read" = "$body" ] || { echo "the job is read as $read" >&2; exit 1; }
}

# On a port that no program uses: nginx can't say which port it was given.
start_nginx() {
    beside=$((${address##*:} - 1))
    cat > "$folder/nginx.conf" <<CONF
daemon off;
worker_processes 4;
pid $folder/nginx.pid;
error_log $folder/nginx.errors;
events { worker_connections 64; }
http {
    access_log off;
    keepalive_requests 1000000000;
    client_body_temp_path $folder/a; proxy_temp_path $folder/b; fastcgi_temp_path $folder/c;
    uwsgi_temp_path $folder/d; scgi_temp_path $folder/e;
    server {
        listen 127.0.0.1:$beside;
        location / { default_type application/json; return 200 '$body'; }
    }
}
CONF
    nginx -p "$folder" -e "$folder/nginx.errors" -c "$folder/nginx.conf" &
    nginx=$!
    tries=0
    until read=$(curl -s "http://127.0.0.1:$beside/"); do
        pause $nginx "$folder/nginx.errors" nginx
    done
    [ "$read" = "$body" ] || { echo "nginx answers $read" >&2; exit 1; }
}

# The requests per second at this address, and how many there were. None may be refused.
ask() {
    wrk -t 2 -c 4 -d "$seconds" -H 'X-Nomad-Token: root' "http://$1/v1/job/web" > "$folder/said"
    if grep -E 'Non-2xx|Socket errors' "$folder/said" >&2; then
        echo "not every request was answered 200" >&2
        exit 1
    fi
    awk '$2 == "requests" && $3 == "in" { many = $1 } $1 == "Requests/sec:" { print $2, many }' "$folder/said"
}

# The bytes of memory that the server has.
memory() { awk '$1 == "VmRSS:" { printf "%d\n", $2 * 1024 }' "/proc/$server/status"; }

# What the threads of the process and of its children took so far: ticks in the program, ticks in the kernel, and how often they slept.
taken() {
    for process in "$1" $(pgrep -P "$1"); do
        for thread in "/proc/$process/task"/*; do
            sed 's/.*) //' "$thread/stat"
            sed -n 's/^voluntary_ctxt_switches:/slept/p' "$thread/status"
        done
    done | awk '$1 == "slept" { slept += $2; next } { here += $12; kernel += $13 } END { print here, kernel, slept }'
}

# The requests per second at the address of this process, and how many there were, as `ask` says, and what they took of it.
measure() {
    took=$(taken "$2")
    said=$(ask "$1")
    echo "$said $took $(taken "$2")"
}

# What each request took, from the lines of `measure`.
each() {
    awk -v name="$1" -v tick="$(getconf CLK_TCK)" '{ many += $2; here += $6 - $3; kernel += $7 - $4; slept += $8 - $5 }
        END { micro = 1000000 / tick / many
            printf "%s, each request: %.2f us in the program, %.2f us in the kernel, %.2f sleeps\n", name, here * micro, kernel * micro, slept / many }' "$2"
}

median() { sort -n "$1" | sed -n 2p | cut -d ' ' -f 1; }

echo "processors $(getconf _NPROCESSORS_ONLN), load before $(cut -d ' ' -f 1-3 /proc/loadavg)"
start_server "$@"
if command -v nginx > "$folder/which"; then start_nginx; fi
before=$(memory)
for _ in 1 2 3; do
    measure "$address" "$server" >> "$folder/ours"
    echo "nsd serve, requests a second: $(tail -n 1 "$folder/ours" | cut -d ' ' -f 1)"
    [ -n "$nginx" ] || continue
    measure "127.0.0.1:$beside" "$nginx" >> "$folder/theirs"
    echo "nginx, requests a second: $(tail -n 1 "$folder/theirs" | cut -d ' ' -f 1)"
done
awk -v grown="$(($(memory) - before))" '{ many += $2 }
    END { printf "nsd serve took %d bytes of memory for each of %d entries of its log\n", grown / many, many }' "$folder/ours"
each 'nsd serve' "$folder/ours"
ours=$(median "$folder/ours")
if [ -z "$nginx" ]; then
    echo "median $ours; nginx is not installed, so it is compared with nothing"
else
    each nginx "$folder/theirs"
    theirs=$(median "$folder/theirs")
    awk -v ours="$ours" -v theirs="$theirs" \
        'BEGIN { printf "median %s of nsd, %s of nginx (a constant body of 313 bytes): the quotient is %.2f\n", ours, theirs, ours / theirs }'
fi
