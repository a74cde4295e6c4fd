#!/bin/bash
# Inherits: a script starts two that wait for each other's line, and becomes another one, which knows nothing of them and
# waits for its own job. In the stall it waits for all three itself. Usage: inherits.sh stuck|slow
mkfifo one two
hand_on() { exec 3<> "$1" 4<> "$2"; read -r line <&3; echo "$line" >&4; }
hand_on one two &
hand_on two one &
if [ "$1" = slow ]; then exec ./own_job.sh; fi
sleep 600 &
wait
