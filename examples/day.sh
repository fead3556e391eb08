#!/bin/sh
# A day of a platform team with two tenants on one server, by curl: a quota that is raised, a job that evicts another, a node that
# fails, a token that is taken back, and an audit of the log. Run it against a new server; day.log is where its log goes:
#
#     ./nsd serve --listen 127.0.0.1:4646 --bootstrap root --rotate 1 > day.log
#     sh examples/day.sh day.log
#
# examples/day.txt has what it prints, and bench/day.py runs it and compares. --rotate 1 writes each entry to the log at once, so that
# the audit at the end sees all of them; for daily use say --rotate 100000.
set -eu
log=$1
at=${NSD_AT:-http://127.0.0.1:4646}
nsd=${NSD:-./nsd}

# One request: a secret, a method, a path, and a body or nothing.
ask() {
    curl -sS -w '\n' -X "$2" -H "X-Nomad-Token: $1" ${4:+-d "$4"} "$at$3"
}

# The same of a request that changes something and answers {}.
change() {
    answer=$(ask "$@")
    [ "$answer" = '{}' ] || { echo "$2 $3: $answer"; exit 1; }
}

# Repeats a command until its output has this text: workers place jobs beside the requests.
await() {
    text=$1
    shift
    tries=0
    until "$@" | grep -q -e "$text"; do
        tries=$((tries + 1))
        [ "$tries" -lt 100 ] || { echo "after 10 seconds there is no $text"; exit 1; }
        sleep 0.1
    done
}

# A new token by its name, which is that of its policy: its accessor and its secret.
token() {
    ask root POST /v1/acl/token "{\"Name\":\"$1\",\"Policies\":[\"$1\"]}" |
        sed 's/.*"AccessorID":"\([^"]*\)".*"SecretID":"\([^"]*\)".*/\1 \2/'
}

# A namespace's allocations in the order of their numbers: job, node, desired status, client status.
allocations() {
    ask "$1" GET "/v1/allocations?namespace=$2" | tr '}' '\n' | sed -n \
        's/.*"ClientStatus":"\([a-z]*\)".*"DesiredStatus":"\([a-z]*\)".*"JobID":"\([a-z]*\)".*"NodeName":"\([a-z0-9]*\)".*/\3 on \4: \2, \1/p'
}

echo '== 8:00, two tenants: each has a pool, a quota, a namespace, a policy and a token of its own'
change root PUT /v1/node/pool/east '{}'
change root PUT /v1/node/pool/west '{}'
change root PUT /v1/quota/qa '{"Limits":[{"RegionLimit":{"CPU":8000,"MemoryMB":8000}}]}'
change root PUT /v1/quota/qb '{"Limits":[{"RegionLimit":{"CPU":500,"MemoryMB":1000}}]}'
change root PUT /v1/namespace/default '{"NodePoolConfiguration":{"Allowed":["default"]}}'
change root PUT /v1/namespace/ta '{"Quota":"qa","NodePoolConfiguration":{"Default":"east","Allowed":["east"]}}'
change root PUT /v1/namespace/tb '{"Quota":"qb","NodePoolConfiguration":{"Default":"west","Allowed":["west"]}}'
change root PUT /v1/acl/policy/ta '{"Rules":"namespace \"ta\" { policy = \"write\" } node_pool \"east\" { policy = \"write\" }"}'
change root PUT /v1/acl/policy/tb '{"Rules":"namespace \"tb\" { policy = \"write\" } node_pool \"west\" { policy = \"write\" }"}'
set -- $(token ta)
a=$2
set -- $(token tb)
accessor_b=$1 b=$2
change "$a" PUT /v1/node/pool/east/node/e1 '{"CPU":1000,"MemoryMB":1000}'
change "$a" PUT /v1/node/pool/east/node/e2 '{"CPU":1000,"MemoryMB":1000}'
change "$b" PUT /v1/node/pool/west/node/w1 '{"CPU":4000,"MemoryMB":4000}'
echo 'team a sees its namespace alone:'
ask "$a" GET /v1/namespaces

echo '== 9:00, team b asks for three allocations of 200 MHz, and its quota of 500 allows two'
ask "$b" POST /v1/jobs '{"Job":{"ID":"api","Namespace":"tb","TaskGroups":[{"Name":"g","Count":3,"Tasks":[{"Name":"t","Resources":{"CPU":200,"MemoryMB":100}}]}]}}'
await '"QuotaLimitReached":"qb"' ask "$b" GET '/v1/evaluations?namespace=tb'
allocations "$b" tb
echo 'its quota is raised to 1000:'
change root PUT /v1/quota/qb '{"Limits":[{"RegionLimit":{"CPU":1000,"MemoryMB":1000}}]}'
await '"ID":"00000000-0000-0002-0000-000000000003"' ask "$b" GET '/v1/allocations?namespace=tb'
allocations "$b" tb

echo '== 10:00, a batch job of team a fills both of its nodes'
ask "$a" POST /v1/jobs '{"Job":{"ID":"nightly","Namespace":"ta","Type":"batch","Priority":20,"TaskGroups":[{"Name":"g","Count":2,"Tasks":[{"Name":"t","Resources":{"CPU":1000,"MemoryMB":500}}]}]}}'
await '"Status":"complete"' ask "$a" GET '/v1/evaluation/00000000-0000-0001-0000-000000000001?namespace=ta'
allocations "$a" ta

echo '== 11:00, a service of greater priority evicts one of its allocations, and the batch job waits for room'
ask "$a" POST /v1/jobs '{"Job":{"ID":"web","Namespace":"ta","Priority":80,"TaskGroups":[{"Name":"g","Tasks":[{"Name":"t","Resources":{"CPU":400,"MemoryMB":100}}]}]}}'
await '"Status":"blocked"' ask "$a" GET '/v1/evaluations?namespace=ta'
allocations "$a" ta

echo '== 12:00, node e2 fails and comes back: the batch job loses an allocation there, and gets a new one'
change "$a" PUT /v1/node/pool/east/node/e2/status '{"Status":"down"}'
allocations "$a" ta
change "$a" PUT /v1/node/pool/east/node/e2/status '{"Status":"ready"}'
await '"ID":"00000000-0000-0002-0000-000000000004"' ask "$a" GET '/v1/allocations?namespace=ta'
allocations "$a" ta

echo '== 13:00, the service is stopped, and the batch job takes its room'
ask "$a" DELETE '/v1/job/web?namespace=ta' > /dev/null
await '"ID":"00000000-0000-0002-0000-000000000005"' ask "$a" GET '/v1/allocations?namespace=ta'
allocations "$a" ta

echo '== 14:00, the token of team b leaked, and is taken back'
change root DELETE "/v1/acl/token/$accessor_b"
ask "$b" GET '/v1/jobs?namespace=tb'

echo '== 15:00, the audit: each team got every reply that it would have got alone'
await 'Permission denied' tail -n 1 "$log"
"$nsd" alone ta --from 5 --pool east --quota qa < "$log" | tail -n 1
"$nsd" alone tb --from 5 --pool west --quota qb < "$log" | tail -n 1
