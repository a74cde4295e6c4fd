#!/bin/bash
sleep 600 &
wait
