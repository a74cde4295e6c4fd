"""The services, jobs and stalls that benches/real looks at: how each is started and loaded, and what is true of it.

Each runs in a folder and a namespace of its own, where no port is taken and no other process is seen. $PROGRAMS is the
folder of the programs that stand beside this file, $PID is what `start` has begun, and `$NOBODY` before a command runs
it as nobody.
"""
from __future__ import annotations

from typing import NamedTuple, Sequence

# What loads share: requests by HTTP, and any command again and again.
SHARED = """
again() { while :; do "$@" > /dev/null 2>&1; sleep 0.2; done; }
web() { again ab -q -k -c 4 -n 40 "http://127.0.0.1:$1/$2"; }
"""


class Row(NamedTuple):
    """A service, by commands of a shell: `start` stays in the foreground, `ready` succeeds once it has begun, `load`
    goes on until it is ended. `looks` are the words behind cmh-stall. Of a stall `root` has the names of those who
    wait for each other, and `behind` of those who may be said with them; each healthy one has none."""

    name: str
    needs: str
    start: str
    ready: str
    load: str = ""
    looks: Sequence[str] = ("linux $PID",)
    root: str = ""
    behind: str = ""


def listens(port: int) -> str:
    return f"ss -Hltn 'sport = :{port}' | grep -q ."


KEYS = "mkdir -p /run/sshd .ssh && ssh-keygen -qt ed25519 -N '' -f .ssh/id && cp .ssh/id.pub keys"
SSHD = "/usr/sbin/sshd -De -p 2222 -h $PWD/.ssh/id -o AuthorizedKeysFile=$PWD/keys -o StrictModes=no -o UsePAM=no"
SSH = "ssh -p 2222 -i .ssh/id -o StrictHostKeyChecking=no 127.0.0.1"
SERVERS = [
    Row("postgres", "postgres initdb pgbench setpriv",
        "$NOBODY initdb -D data -U shop --auth=trust -N > /dev/null && exec $NOBODY postgres -D data -k $PWD",
        "psql -c 'select 1' && pgbench -q -i", "pgbench -R 50 -c 4 -T 600",
        ["linux $PID", "postgres", "linux $PID --with postgres"]),
    Row("mariadb", "mariadbd mariadb-install-db mariadb-slap setpriv", """
        printf '[client]\\nuser=root\\nsocket=%s/s\\n' $PWD > .my.cnf
        $NOBODY mariadb-install-db --no-defaults --datadir=$PWD/data --skip-test-db \\
            --auth-root-authentication-method=normal > /dev/null
        exec $NOBODY mariadbd --no-defaults --datadir=$PWD/data --socket=$PWD/s""",
        "mariadb -e 'select 1'",
        "again mariadb-slap --auto-generate-sql --auto-generate-sql-load-type=mixed --concurrency=4 --iterations=2",
        ["linux $PID", "mariadb", "linux $PID --with mariadb"]),
    Row("redis", "redis-server redis-benchmark", "exec redis-server --save ''", "redis-cli ping | grep PONG",
        "again redis-benchmark -q -c 4 -n 200"),
    Row("memcached", "memcached memcslap", "exec memcached -u nobody -l 127.0.0.1", listens(11211),
        "again memcslap --servers=127.0.0.1 --concurrency=4 --execute-number=50"),
    Row("nginx", "nginx ab", """
        printf 'daemon off; worker_processes 2; pid nginx.pid; user nobody nogroup; events {}
            http { access_log off; server { listen 8080; location / { return 200 ok; } } }' > nginx.conf
        exec nginx -p $PWD -c nginx.conf -e stderr""", listens(8080), "web 8080"),
    Row("apache2", "apache2 ab", """
        printf 'ServerName localhost\\nServerRoot %s\\nPidFile apache.pid\\nListen 8080\\nUser nobody\\nGroup nogroup
            LoadModule mpm_event_module /usr/lib/apache2/modules/mod_mpm_event.so
            LoadModule authz_core_module /usr/lib/apache2/modules/mod_authz_core.so
            DocumentRoot /usr/share/doc\\nErrorLog error.log' $PWD > apache.conf
        exec apache2 -f $PWD/apache.conf -DFOREGROUND""", listens(8080), "web 8080 index.html"),
    Row("apache2 prefork", "apache2 ab", """
        printf 'ServerName localhost\\nServerRoot %s\\nPidFile apache.pid\\nListen 8080\\nUser nobody\\nGroup nogroup
            LoadModule mpm_prefork_module /usr/lib/apache2/modules/mod_mpm_prefork.so
            LoadModule authz_core_module /usr/lib/apache2/modules/mod_authz_core.so
            DocumentRoot /usr/share/doc\\nErrorLog error.log' $PWD > apache.conf
        exec apache2 -f $PWD/apache.conf -DFOREGROUND""", listens(8080), "web 8080 index.html"),
    Row("lighttpd", "lighttpd ab", """
        printf 'server.document-root = "/usr/share/doc"\\nserver.port = 8080\\nserver.username = "nobody"' \\
            > lighttpd.conf
        exec lighttpd -D -f lighttpd.conf""", listens(8080), "web 8080 index.html"),
    Row("haproxy", "haproxy ab", """
        python3 -m http.server 8081 > /dev/null 2>&1 &
        printf 'defaults\\n mode http\\n timeout connect 5s\\n timeout client 50s\\n timeout server 50s
            frontend f\\n bind :8080\\n default_backend b\\nbackend b\\n server s 127.0.0.1:8081 check\\n' \\
            > haproxy.conf
        exec haproxy -db -W -f haproxy.conf""", f"{listens(8080)} && {listens(8081)}", "web 8080"),
    Row("squid", "squid ab", """
        printf 'http_port 3128\\nhttp_access allow all\\npid_filename %s/squid.pid\\ncache_effective_user nobody
cache_log /dev/null\\naccess_log none\\ncoredump_dir %s\\n' $PWD $PWD > squid.conf
        python3 -m http.server 8081 > /dev/null 2>&1 &
        exec squid -N -f $PWD/squid.conf""", f"{listens(3128)} && {listens(8081)}",
        "again ab -q -c 4 -n 40 -X 127.0.0.1:3128 http://127.0.0.1:8081/"),
    Row("varnish", "varnishd ab", """
        python3 -m http.server 8081 > /dev/null 2>&1 &
        exec varnishd -F -a :8080 -b 127.0.0.1:8081 -n $PWD/v -s malloc,16m""",
        f"{listens(8080)} && {listens(8081)}", "web 8080"),
    Row("mosquitto", "mosquitto mosquitto_sub mosquitto_pub", "exec mosquitto -p 1883", listens(1883),
        "mosquitto_sub -t a & again mosquitto_pub -t a -m b"),
    Row("dnsmasq", "dnsmasq", "exec dnsmasq -k -p 5353 --no-resolv --no-hosts -u nobody --address=/shop/127.0.0.9",
        listens(5353), "again python3 $PROGRAMS/asks.py 5353"),
    Row("unbound", "unbound", """
        printf 'server:\\n interface: 127.0.0.1@5353\\n chroot: ""\\n username: nobody\\n directory: "%s"\\n pidfile: ""
            use-syslog: no\\n num-threads: 2\\n local-data: "shop A 127.0.0.9"\\nremote-control:\\n control-enable: no
' $PWD > unbound.conf
        exec unbound -d -c unbound.conf""", "ss -Hlun 'sport = :5353' | grep -q .",
        "again python3 $PROGRAMS/asks.py 5353"),
    Row("rabbitmq", "rabbitmq-server rabbitmqctl", """
        export RABBITMQ_MNESIA_BASE=$PWD RABBITMQ_LOG_BASE=$PWD
        printf '[].' > plugins; export RABBITMQ_ENABLED_PLUGINS_FILE=$PWD/plugins
        exec rabbitmq-server""",
        "rabbitmqctl -q await_startup",
        "/usr/bin/python3 $PROGRAMS/worker.py 5672 & exec /usr/bin/python3 $PROGRAMS/client.py amqp 5672 50 log",
        ["linux $PID", "rabbitmq", "erlang mq@localhost"]),
    Row("tomcat", "java ab", """
        mkdir -p temp logs work webapps/ROOT && cp -r /etc/tomcat10 conf && echo ok > webapps/ROOT/index.html
        export CATALINA_HOME=/usr/share/tomcat10 CATALINA_BASE=$PWD CATALINA_TMPDIR=$PWD/temp JAVA_OPTS=-Xmx128m
        exec /usr/share/tomcat10/bin/catalina.sh run""", "curl -sf http://127.0.0.1:8080/", "web 8080",
        ["linux $PID", "jvm $PID", "jvm $PID --heap --yes"]),
    Row("jetty", "java ab", """
        mkdir -p webapps/root && echo ok > webapps/root/index.html
        exec java -Xmx128m -Djetty.home=/usr/share/jetty9 -Djetty.base=$PWD -jar /usr/share/jetty9/start.jar \\
            --module=http,deploy,webapp jetty.http.port=8080""", "curl -sf http://127.0.0.1:8080/", "web 8080",
        ["linux $PID", "jvm $PID", "jvm $PID --heap --yes"]),
    Row("zookeeper", "java", """
        printf 'tickTime=2000\\ndataDir=%s/zk\\nclientPort=2181\\nadmin.enableServer=false\\n' $PWD > zoo.cfg
        exec java -Xmx128m -cp '/usr/share/java/zookeeper.jar:/usr/share/java/*' \\
            org.apache.zookeeper.server.quorum.QuorumPeerMain zoo.cfg""", listens(2181),
        "again sh -c 'echo srvr | nc -q 1 127.0.0.1 2181'", ["linux $PID", "jvm $PID", "jvm $PID --heap --yes"]),
    Row("etcd", "etcd etcdctl", "exec etcd --enable-pprof --data-dir data --log-level error", "etcdctl put a b",
        "etcdctl watch a & again etcdctl put a b", ["linux $PID", "go 127.0.0.1:2379"]),
    Row("prometheus", "prometheus ab", """
        printf 'scrape_configs:\\n- job_name: own\\n  scrape_interval: 1s\\n  static_configs:
  - targets: ["127.0.0.1:9090"]\\n' > prometheus.yml
        exec prometheus --config.file=prometheus.yml --storage.tsdb.path=data --log.level=error""",
        "curl -sf http://127.0.0.1:9090/-/ready", "web 9090 metrics", ["linux $PID", "go 127.0.0.1:9090"]),
    Row("caddy", "caddy ab", "printf ':8080\\nrespond ok\\n' > Caddyfile; exec caddy run --config Caddyfile",
        "curl -sf http://127.0.0.1:8080/", "web 8080", ["linux $PID", "go 127.0.0.1:2019"]),
    Row("syncthing", "syncthing ab",
        "export STPROFILER=127.0.0.1:9091; exec syncthing serve --home=$PWD --no-browser --gui-address=127.0.0.1:8384",
        "curl -sf http://127.0.0.1:8384/", "web 8384", ["linux $PID", "go 127.0.0.1:9091"]),
    Row("gunicorn", "gunicorn ab", "exec gunicorn -w 2 -b 127.0.0.1:8080 --chdir $PROGRAMS web:plain",
        "curl -sf http://127.0.0.1:8080/", "again ab -q -c 4 -n 40 http://127.0.0.1:8080/",
        ["linux $PID", "python $PID $(pgrep -P $PID)"]),
    Row("gunicorn with threads", "gunicorn ab",
        "exec gunicorn -w 2 --threads 4 -b 127.0.0.1:8080 --chdir $PROGRAMS web:plain",
        "curl -sf http://127.0.0.1:8080/", "web 8080", ["linux $PID", "python $PID $(pgrep -P $PID)"]),
    Row("uvicorn", "uvicorn ab", "exec uvicorn --port 8080 --app-dir $PROGRAMS --log-level error web:asked",
        "curl -sf http://127.0.0.1:8080/", "web 8080", ["linux $PID", "python $PID"]),
    Row("celery", "celery redis-server", """
        redis-server --save '' > /dev/null & cp $PROGRAMS/jobs.py .
        exec /usr/bin/python3 /usr/bin/celery -A jobs worker -c 2 -l error""",
        f"{listens(6379)} && sleep 5", "exec /usr/bin/python3 jobs.py",
        ["linux $PID", "python $PID $(pgrep -P $PID celery)"]),
    Row("twisted", "twistd3 ab", "exec twistd3 -n web --listen=tcp:8080 --path=/usr/share/doc",
        "curl -s http://127.0.0.1:8080/", "web 8080 nothing", ["linux $PID", "python $PID"]),
    Row("php -S", "php ab", "echo ok > index.html; exec php -S 127.0.0.1:8080 > /dev/null 2>&1",
        "curl -sf http://127.0.0.1:8080/", "web 8080"),
    Row("node", "node ab",
        "exec node -e \"require('http').createServer((_, to) => to.end('ok')).listen(8080)\"",
        "curl -sf http://127.0.0.1:8080/", "web 8080"),
    Row("http.server", "python3 ab", "exec python3 -m http.server 8080 > /dev/null 2>&1", listens(8080), "web 8080",
        ["linux $PID", "python $PID"]),
    Row("echo.py", "python3", "exec python3 $PROGRAMS/echo.py > ready", "grep ready ready",
        "exec python3 $PROGRAMS/client.py tcp $(cut -d' ' -f2 ready) 50 log", ["linux $PID", "python $PID"]),
    Row("service.go", "go", "go build -o service $PROGRAMS/service.go && exec ./service > ready", "grep ready ready",
        "exec python3 $PROGRAMS/client.py http $(cut -d' ' -f2 ready) 50 log",
        ["linux $PID", "go 127.0.0.1:$(cut -d' ' -f2 ready)"]),
    Row("Service.java", "javac", "javac -d . $PROGRAMS/Service.java && exec java -Xmx512m Service > ready",
        "grep ready ready", "exec python3 $PROGRAMS/client.py http $(cut -d' ' -f2 ready) 50 log",
        ["linux $PID", "jvm $PID", "jvm $PID --heap --yes"]),
    Row("service.erl", "erl erlc", """
        erlc $PROGRAMS/service.erl && exec erl -noinput -sname service@localhost -eval 'service:start().' > ready""",
        "grep ready ready", 
        "exec erl -noshell -hidden -sname client@localhost -run service call_it service@localhost 100 log",
        ["linux $PID", "erlang service@localhost"]),
    Row("sshd", "sshd ssh ssh-keygen", f"{KEYS}\nexec {SSHD}", listens(2222), f"again {SSH} 'sleep 1; ls /usr'"),
]
JOBS = [
    Row("emacs", "emacs emacsclient", "exec emacs -Q --fg-daemon=$PWD/e", "emacsclient -s $PWD/e -e 1",
        "again emacsclient -s $PWD/e -e '(length (directory-files \"/usr/bin\"))'"),
    Row("tmux", "tmux", "exec tmux -S $PWD/t -D", "tmux -S $PWD/t new -d 'sh; true'",
        "again tmux -S $PWD/t send-keys ls Enter"),
    Row("make", "make", "printf 'all: $(shell seq 400)\\n%%:\\n\\tsleep 0.2; seq 20000 | sort > $@\\n' > Makefile; "
        "exec make -j 4 > /dev/null", "sleep 1"),
    Row("parallel", "parallel", "seq 100000 | parallel -j 3 'sleep 0.1; echo {}' > /dev/null & wait", "sleep 3"),
    Row("ffmpeg", "ffmpeg", "exec ffmpeg -loglevel error -re -f lavfi -i testsrc -t 600 -f mpegts - > /dev/null",
        "sleep 3"),
    Row("tar with xz", "tar xz", "tar c /usr/share /usr/lib 2> /dev/null | xz -T2 -1 > /dev/null & wait", "sleep 3"),
    Row("tar with xz, throttled", "tar xz", """
        tar c /usr/share /usr/lib 2> /dev/null | xz -1 |
            python3 -c 'import os, time
while os.read(0, 65536): time.sleep(0.05)' & wait""", "sleep 3"),
    Row("hpcc", "hpcc mpirun", """
        sed 's/^[0-9]* *Ns$/8000 Ns/; s/^2 *Ps$/1 Ps/' /usr/share/doc/hpcc/examples/_hpccinf.txt > hpccinf.txt
        exec mpirun --oversubscribe --allow-run-as-root --mca btl self,vader -np 2 hpcc""", "pgrep -x hpcc && sleep 2",
        looks=["linux $PID", "mpi hpcc"]),
    Row("steps.c", "mpicc mpirun", """
        mpicc -O2 -g -o steps $PROGRAMS/steps.c
        exec mpirun --oversubscribe --allow-run-as-root --mca btl self,vader -np 3 ./steps 100 log""", "pgrep -x steps",
        looks=["linux $PID", "mpi steps"]),
    Row("multiprocessing", "python3", "exec python3 $PROGRAMS/pools.py", "sleep 2",
        looks=["linux $PID", "python $PID"]),
    Row("cron-like shell", "bash", 
        "exec bash -c 'while :; do sleep 1 & wait; ls /usr | sort | wc -l; done' > /dev/null",
        "sleep 1"),
    Row("journal", "tail", "exec sh -c 'while sleep 0.3; do date; done > log & tail -f log | grep --line-buffered : | "
        "while read -r line; do echo $line; done > /dev/null'", "sleep 1"),
]
# What of stress-ng waits, each alone: for each other, the kernel or a time. None begins as many processes as it can.
STRESSORS = ("alarm clock epoll eventfd fifo flock fork futex hrtimers inotify itimer kill locka lockf lockofd mq msg "
             "mutex nanosleep pidfd pipe pipeherd poll pthread ring-pipe sem sem-sysv sendfile session sigchld sigfd "
             "sigio sigq sigrt sigsuspend sleep sock sockfd sockpair splice switch tee timer timerfd udp vm-splice "
             "wait")
STRESSED = [Row(f"stress-ng --{name}", "stress-ng",
                f"exec nice -n 19 stress-ng --quiet --{name} 1 --temp-path $PWD --timeout 600", "sleep 2")
            for name in STRESSORS.split()]
STALLS = [
    Row("Popen(..).wait() on a full pipe", "python3 seq", """exec python3 -c 'import subprocess
subprocess.Popen(["seq", "1000000"], stdout=subprocess.PIPE).wait()'""", "sleep 1", root="python3 seq",
        looks=["linux $PID"]),
    Row("tee into a FIFO that is read last", "tee seq", "mkfifo f; seq 1000000 | tee f | cat - f > /dev/null & wait",
        "sleep 1", root="cat tee", behind="seq bash"),
    Row("two jobs of make that hold a token and want another", "make python3", """
        printf 'all: a b\\na b:\\n\\t+python3 %s/tokens.py\\n' $PROGRAMS > Makefile; exec make -j 3""", "sleep 3",
        root="python3 python3", behind="make sh sh"),
    Row("nested flock in two orders", "flock", """
        flock a sh -c 'sleep 1; flock b true; true' & flock b sh -c 'sleep 1; flock a true; true' & wait""", "sleep 3",
        root="flock flock flock flock sh sh", behind="bash"),
    Row("ssh that is full both ways", "sshd ssh ssh-keygen python3", f"""
        {KEYS}; {SSHD} 2> sshd & sleep 2; python3 -c 'import subprocess
ssh = subprocess.Popen("{SSH} cat".split(), stdin=subprocess.PIPE, stdout=subprocess.PIPE)
ssh.stdin.write(bytes(100_000_000))
ssh.stdout.read()' & wait""", "sleep 6", root="python3 ssh sshd cat", behind="bash sshd"),
    Row("fork while another thread has a lock", "python3", "exec /usr/bin/python3 $PROGRAMS/forked.py", "sleep 2",
        root="python3", looks=["linux $PID", "python $PID $(pgrep -P $PID)"]),
    Row("gunicorn that asks itself", "gunicorn curl",
        "gunicorn -w 1 -t 0 -b 127.0.0.1:8080 --chdir $PROGRAMS web:asks & sleep 3; curl -s 127.0.0.1:8080/ask & wait",
        "sleep 6", root="gunicorn", behind="bash curl"),
    Row("uvicorn that asks itself", "uvicorn curl", """
        uvicorn --port 8080 --app-dir $PROGRAMS --log-level error web:asked & sleep 3
        curl -s http://127.0.0.1:8080/ask & wait""", "sleep 6", root="uvicorn", behind="bash curl"),
    Row("php -S that asks itself", "php curl", """
        echo '<?php ini_set("default_socket_timeout", -1); readfile("http://127.0.0.1:8080/other.txt");' > index.php
        php -S 127.0.0.1:8080 2> /dev/null & sleep 2; curl -s http://127.0.0.1:8080/ & wait""", "sleep 4", root="php",
        behind="bash curl"),
    Row("psql that runs psql, by advisory locks", "postgres initdb psql setpriv", """
        $NOBODY initdb -D data -U shop --auth=trust -N > /dev/null; $NOBODY postgres -D data -k $PWD 2> log &
        sleep 6; echo "select pg_advisory_lock(1);
\\! psql -c 'select pg_advisory_lock(1)'" > script; exec psql -f script""", "sleep 10",
        root="psql sh psql psql@postgres psql@postgres", looks=["linux $PID --with postgres"]),
    Row("expect that waits for who waits for it", "expect cat",
        "exec expect -c 'set timeout -1; spawn cat; expect password:'", "sleep 2", root="cat expect expect"),
]
ROWS = [*SERVERS, *JOBS, *STRESSED, *STALLS]
