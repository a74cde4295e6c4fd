#!/bin/sh
# Two scripts, each of which needs the locks of two folders. Usage: locks.sh stuck|slow
take() {
    exec 8> "$1.lock" 9> "$2.lock"
    flock 8
    sleep "$3"
    flock 9
}
(take data logs 1) &
(if [ "$1" = slow ]; then take logs data 600; else take logs data 1; fi) &
wait
