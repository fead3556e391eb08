#!/bin/bash
# matrix.sh PROGRAM: the figures of docs/PERFORMANCE.md, once.
for rows in 1000 10000; do
  rounds=101
  [ $rows = 10000 ] && rounds=7
  for order in rising falling random; do
    for kind in sorted mapped ordered; do
      "$1" name $kind $order $rows $rounds
    done
  done
done
for kind in sorted mapped ordered; do
  "$1" number $kind rising 1000000 5
  "$1" alike $kind random 1000 101
done
