#!/bin/bash
# Hands over: a job waits for word that comes once another one has ended.
mkfifo go
exec 5<> go
install() { read -r line <&5; echo "$line"; }
install & two=$!
sleep 600 & one=$!
wait "$one"
echo go >&5
echo "$two was told"
