#!/bin/sh
# Prints each number beside the sum of all of them. Usage: pipeline.sh stuck|slow
mkfifo copy total
if [ "$1" = slow ]; then before='BEGIN { system("sleep 600") }'; else before=; fi
awk "$before"' { sum += $1 } END { print sum }' < copy > total &
seq 1000000 | tee copy | paste - total > sums
