#!/bin/sh
# What a script runs of others' programs, with bounds. Where Python and cmh_proc are there, these are on its output and
# its memory too. A script has its own folder in $here.

# Runs a command for so many seconds at most: bounded [--stdin] SECONDS COMMAND [WORD..]. With --stdin it has the input.
# Its status is 124 if it takes longer.
bounded() {
    input=
    if [ "$1" = --stdin ]; then
        input=$1
        shift
    fi
    for proc in "$here/../cmh_proc" "$here/cmh_proc" "$here/../../lib/cmh/cmh_proc"; do
        if [ -d "$proc" ] && command -v python3 >/dev/null; then
            seconds=$1
            shift
            python3 "$proc" $input "$seconds" "${most:-64}" "${memory:-320}" "$@"
            return
        fi
    done
    if command -v timeout >/dev/null; then
        timeout -k 1 "$@"
    else
        shift
        "$@"
    fi
}
