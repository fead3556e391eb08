#!/bin/sh
# Sends requests through nginx, over TLS, to `nsd serve`, with the configuration of examples/run/nginx.conf, and compares the answers.
#
#     bench/proxy.sh [PROGRAM]
#
# PROGRAM is the built program: crates/nsd/out/nsd if none is given. 160 requests go over 40 connections at a time, beside 4
# clients that connect to the proxy and send nothing. If a request does not get 200, the exit status is 1. Packages of Debian:
# nginx-light, curl, openssl.
set -eu
root=$(CDPATH='' cd -- "$(dirname -- "$0")/.." && pwd)
program=${1:-$root/crates/nsd/out/nsd}
folder=$(mktemp -d)
server='' nginx='' silent=''
trap 'kill $silent $nginx $server 2>/dev/null || true; wait; rm -rf "$folder"' EXIT
trap 'exit 1' HUP INT TERM

"$program" serve --listen 127.0.0.1:0 --bootstrap root --connections 32 --idle 60 --rotate 100000 2> "$folder/errors" > "$folder/log" &
server=$!
tries=0
until address=$(sed -n 's/^listening //p' "$folder/errors") && [ -n "$address" ]; do
    tries=$((tries + 1))
    [ $tries -le 100 ] || { echo "the server does not listen" >&2; exit 1; }
    sleep 0.1
done
port=$((${address##*:} - 1))
openssl req -x509 -newkey rsa:2048 -nodes -days 1 -subj /CN=nsd.example.com -keyout "$folder/nsd.key" -out "$folder/nsd.crt" 2> "$folder/made"
{
    echo "daemon off; pid $folder/pid; error_log $folder/nginx.errors; worker_processes 4; events {}"
    echo "http { access_log off; client_body_temp_path $folder/body; proxy_temp_path $folder/proxy; fastcgi_temp_path $folder/fastcgi;"
    echo "uwsgi_temp_path $folder/uwsgi; scgi_temp_path $folder/scgi;"
    sed -e "s|127.0.0.1:4646|$address|" -e "s|listen 443|listen 127.0.0.1:$port|" -e "s|/etc/nginx|$folder|" "$root/examples/run/nginx.conf"
    echo "}"
} > "$folder/nginx.conf"
chmod -R a+rX "$folder"
nginx -e "$folder/nginx.errors" -c "$folder/nginx.conf" &
nginx=$!
ask() { curl -sS --cacert "$folder/nsd.crt" --resolve "nsd.example.com:$port:127.0.0.1" -H 'X-Nomad-Token: root' -w '%{http_code}' "$@"; }
tries=0
until answer=$(ask "https://nsd.example.com:$port/v1/jobs" 2> "$folder/refused") && [ "$answer" = '[]200' ]; do
    tries=$((tries + 1))
    [ $tries -le 100 ] || { cat "$folder/refused" "$folder/nginx.errors" >&2; echo "the proxy does not serve: $answer" >&2; exit 1; }
    sleep 0.1
done
# Its input is a pipe that this script holds open and never writes.
mkfifo "$folder/nothing"
exec 3<> "$folder/nothing"
openssl s_client -connect "127.0.0.1:$port" < "$folder/nothing" > "$folder/silent" 2>&1 &
silent=$!
count=0
while [ $count -lt 160 ]; do
    count=$((count + 1))
    ask -o "$folder/body-$count" "https://nsd.example.com:$port/v1/jobs" > "$folder/status-$count" &
    asked="${asked-} $!"
    [ $((count % 40)) -ne 0 ] || { wait $asked; asked=''; }
done
answered=$(cat "$folder"/status-* | grep -o 200 | wc -l)
echo "$answered of 160 requests through the proxy were answered 200"
[ "$answered" -eq 160 ]
