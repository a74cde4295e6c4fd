# What the record scripts share. Each run has a folder of its own, $work, and ends the processes in $started. Those
# end by themselves too, ten minutes later, where a run is killed.

work=$(mktemp -d)
started=() servers=() slot=
end_all() { kill "${started[@]}" 2> /dev/null || true; kill -QUIT "${servers[@]}" 2> /dev/null || true; wait; }
trap 'end_all; rm -rf "$work" "$slot"' EXIT

# Runs $TAKER on what stalls, where it is set, in place of the record's own reading: with the system, and whom to take.
hand_over() { [ -z "${TAKER:-}" ] || { "$TAKER" "$@"; exit; }; }

# Makes what several runs need that share a folder $BUILT, once: runs a command that makes NAME in the folder `built`.
# Usage: once NAME COMMAND..
built=${BUILT:-$work/built}
once() {
    mkdir -p "$built"
    (flock 9 && { [ -e "$built/$1.made" ] || { "${@:2}" && : > "$built/$1.made"; }; }) 9> "$built/$1.lock"
}

# (It takes half the processor time so.)
javac() { command javac -J-XX:TieredStopAtLevel=1 -J-XX:+UseSerialGC "$@"; }

# A port from 10000 to 29999 that nobody has. The three after it are this run's own too: a folder says so to those that
# begin at the same time.
until [ -n "$slot" ]; do
    port=$((10000 + 4 * (SRANDOM % 5000)))
    (exec 3<> "/dev/tcp/127.0.0.1/$port") 2> /dev/null || ! mkdir "${TMPDIR:-/tmp}/cmh-port-$port" 2> /dev/null ||
        slot=${TMPDIR:-/tmp}/cmh-port-$port
done

# Starts an epmd for this run alone, so that its nodes meet those of no other. Nodes find names of hosts in the file
# `hosts`, and a cookie that the first one makes in the folder.
own_epmd() {
    export ERL_EPMD_ADDRESS=127.0.0.1 ERL_EPMD_PORT=$port
    timeout 600 epmd > "$work/epmd.log" 2>&1 & started+=($!)
    until epmd -names > /dev/null 2>&1; do kill -0 $!; sleep 0.1; done
    echo "{host, {127,0,0,1}, [$1]}. {lookup, [file]}." > "$work/hosts"
    export ERL_INETRC=$work/hosts HOME=$work
}

# A node that ends with this run, and one that evaluates an expression and ends. The first has what is in `node` alone.
node() {
    (cd "$work/node" && exec timeout 600 erl -noinput -start_epmd false -sname "$1" > "$work/$1.log" 2>&1) &
    started+=($!)
    until [ -s "$work/.erlang.cookie" ] && epmd -names | grep -q "^name ${1%@*} "; do kill -0 $!; sleep 0.1; done
}
ask() {
    erl -noinput -start_epmd false -hidden -sname "ops-$BASHPID@${1#*@}" -eval "$2"
}

# Prints what `take` says of Erlang nodes, once all processes have done nothing between its two readings.
take_counts() {
    while take > "$work/state"; do
        if has_rested < "$work/state"; then cat "$work/state"; return; fi
    done
    return 1
}
has_rested() {
    awk '/^=process / { process = $2 " " $3 }
        /^{reductions,/ { if (process in count && count[process] != $0) exit 1; count[process] = $0 }'
}

# Makes the ocean model of a file, as if it lay in /srv/job.
make_halo() {
    cp "$1" "$built" && cd "$built"
    mpicc -g -fdebug-prefix-map="$built"=/srv/job -o halo halo.c
}

# Starts as many ranks of a program. Those that wait compute, so all of them share one processor.
run_ranks() {
    ranks=$1 program=$2
    shift
    TMPDIR=$work timeout -k 10 600 nice taskset -c "$(one_processor)" mpirun --oversubscribe --allow-run-as-root \
        -np "$ranks" "$@" >&2 & started+=($!)
}

one_processor() { sed -n 's/^Cpus_allowed_list:\t\([0-9]*\).*/\1/p' /proc/self/status; }

await_ranks() { until [ "$(pgrep -fc "^$program ")" -ge "$ranks" ]; do kill -0 "${started[0]}"; sleep 0.2; done; }

# Prints where each rank stands, all at once: one that is read is held, and takes no processor time from the others.
take_ranks() {
    await_ranks
    readers=()
    for pid in $(pgrep -f "^$program "); do
        {
            echo "# gdb -p $pid -batch -ex bt, $(tr '\0' '\n' < "/proc/$pid/environ" | grep ^OMPI_COMM_WORLD_RANK=)"
            gdb -p "$pid" -batch -ex bt 2>&1
        } > "$work/$pid.stack" & readers+=($!)
    done
    wait "${readers[@]}"
    cat "$work"/*.stack
}
# The frames of the job's own in a state, once no rank is in MPI_Init.
places_of_ranks() { ! grep -q MPI_Init "$1" && grep -o '^# gdb.*\|[a-z_]* ([^()]*) at [a-z]*\.c:.*' "$1"; }

# Prints two states that a command prints, a second or more apart, once another one finds all at the same places in
# both. Usage: take_twice TAKE PLACES
take_twice() {
    "$1" > "$work/first"
    until sleep 1; "$1" > "$work/second"; is_same "$2"; do mv "$work/second" "$work/first"; done
    cat "$work/first" "$work/second"
}
is_same() { places=$("$1" "$work/first") && [ -n "$places" ] && [ "$places" = "$("$1" "$work/second")" ]; }

# What runs a command as nobody, where this is root: a server of a database refuses root.
nobody=()
[ "$(id -u)" != 0 ] || nobody=(setpriv --reuid=65534 --regid=65534 --clear-groups env "HOME=$work")

# Starts a PostgreSQL server for this run alone, with more options, and names it for its clients.
own_postgres() {
    bin=$(ls -d /usr/lib/postgresql/*/bin "$(dirname "$(command -v initdb || echo /)")" 2> /dev/null | head -n 1)
    mkdir -p -m 777 "$work/postgres" "$work/socket" "$built"
    chmod 755 "$work"
    once cluster "${nobody[@]}" "$bin/initdb" -D "$built/cluster" -U shop --auth=trust --no-locale -E UTF8 -N \
        > "$work/log"
    "${nobody[@]}" cp -r "$built/cluster" "$work/postgres/data"
    export PGHOST=$work/socket PGPORT=$port PGUSER=shop PGDATABASE=postgres
    "${nobody[@]}" timeout -k 10 900 "$bin/postgres" -D "$work/postgres/data" -k "$PGHOST" -p "$port" -F -h 127.0.0.1 \
        -c max_connections=40 "$@" > "$work/log" 2>&1 & servers+=($!)
    until psql -qXAtc 'select 1' > /dev/null 2>&1; do await_server $!; done
}
# Starts a pgbouncer before it, at $pool, with more lines of its settings: its database `shop` is that of the server.
own_pgbouncer() {
    pool=$((port + 1))
    echo "\"$PGUSER\" \"\"" > "$work/users"
    printf '%s\n' '[databases]' "shop = host=127.0.0.1 port=$PGPORT dbname=$PGDATABASE" '[pgbouncer]' \
        listen_addr=127.0.0.1 "listen_port=$pool" unix_socket_dir= auth_type=trust "auth_file=$work/users" \
        "admin_users=$PGUSER" "$@" > "$work/pgbouncer.ini"
    chmod 644 "$work/users" "$work/pgbouncer.ini"
    "${nobody[@]}" timeout -k 10 900 pgbouncer -q "$work/pgbouncer.ini" > "$work/log" 2>&1 & started+=($!)
    until ask_pool 'show version' > /dev/null 2>&1; do await_server $!; done
}
ask_pool() { psql -qXAtc "$1" -h 127.0.0.1 -p "$pool" pgbouncer; }
# Waits a moment for a server that starts, or prints why it has ended, or doesn't answer.
await_server() {
    kill -0 "$1" && [ $SECONDS -lt 300 ] || { cat "$work/log" >&2; exit 1; }
    sleep 0.1
}

# The same of MariaDB, which its clients find by a file of options. Its user is root, without a password.
own_mariadb() {
    mkdir -m 777 "$work/mariadb"
    chmod 755 "$work"
    "${nobody[@]}" mariadb-install-db --no-defaults --datadir="$work/mariadb/data" --skip-test-db \
        --auth-root-authentication-method=normal > "$work/log" 2>&1
    "${nobody[@]}" timeout -k 10 900 "$(command -v mariadbd || echo /usr/sbin/mariadbd)" --no-defaults \
        --datadir="$work/mariadb/data" --socket="$work/mariadb/s" --port="$port" --bind-address=127.0.0.1 \
        --pid-file="$work/mariadb/pid" --innodb-flush-log-at-trx-commit=0 "$@" > "$work/log" 2>&1 & servers+=($!)
    mkdir -p "$work/home"
    printf '[client]\nuser=root\nprotocol=tcp\nhost=127.0.0.1\nport=%s\n' "$port" > "$work/home/.my.cnf"
    export HOME=$work/home
    # (Some have waited for a thread of their own at the start, and taken nobody.)
    until mariadb --connect-timeout=10 -e 'select 1' > /dev/null 2>&1; do await_server $!; done
}

# Starts a broker for this run alone, at $PORT, with a plugin where one is named.
own_broker() {
    own_epmd '"broker-1"'
    export RABBITMQ_NODENAME=mq@broker-1 RABBITMQ_MNESIA_BASE=$work RABBITMQ_LOG_BASE=$work PORT=$((port + 1))
    export RABBITMQ_DIST_PORT=$((port + 2)) RABBITMQ_ENABLED_PLUGINS_FILE=$work/plugins
    export RABBITMQ_CONFIG_FILE=$work/rabbitmq.conf PATH=/usr/lib/rabbitmq/bin:$PATH
    echo "listeners.tcp.1 = 127.0.0.1:$PORT" > "$RABBITMQ_CONFIG_FILE"
    [ $# = 0 ] || echo "[$1]." > "$work/plugins"
    timeout 900 rabbitmq-server >&2 & started+=($!)
    until rabbitmqctl -q await_startup >&2; do kill -0 $!; sleep 1; done
}
