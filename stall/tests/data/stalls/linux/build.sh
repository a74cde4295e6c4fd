#!/bin/bash
# Builds three parts side by side, as `make -j` does: as many compilers may run as there are tokens in a pipe, and who
# wants one reads a token, and writes it back afterwards. What it does is said by the name of the link that it is run by.
# Usage: build inherits|closed stuck|slow | lib | app | docs | progress | nightly
get_token() { read -r -n 1 -u 3; }

case $(basename "$0") in
    build)
        exec 9> build.lock
        flock 9
        mkfifo tokens
        exec 3<> tokens
        printf '++' >&3
        if [ "$2" = slow ]; then printf '++' >&3; fi
        if [ "$1" = closed ]; then ./progress 3>&- 9>&- & else ./progress & fi
        progress=$! parts=()
        for part in lib app docs; do
            "./$part" "$2" & parts+=($!)
            sleep 0.1
        done
        wait "${parts[@]}"
        kill "$progress"
        ;;
    progress)  # says how far the build is
        while sleep 600; do echo "$(wc -l < parts) of 3 parts"; done
        ;;
    nightly)  # packs what was built, once no build is under way
        exec 8> build.lock
        flock 8
        tar cf package.tar parts
        ;;
    *)  # a part has one token, and takes another for its generated sources
        get_token
        sleep 0.5
        get_token
        if [ "$(basename "$0") $1" = "lib slow" ]; then sleep 600; fi
        printf '++' >&3
        echo "$0" >> parts
        ;;
esac
