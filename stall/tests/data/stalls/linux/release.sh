#!/bin/bash
# Releases: two jobs want two locks in two orders, and a third one says how far they are.
take() { exec 8> "$1"; flock 8; sleep 1; exec 9> "$2"; flock 9; }
report() { while sleep 600; do date; done; }
report & reporter=$!
take site.lock data.lock & one=$!
take data.lock site.lock & two=$!
wait "$one" "$two"
kill "$reporter"
