"""Servers that ask themselves over HTTP, each with a twin in which somebody else is there to answer and takes long."""
import os
import socket
import time
import urllib.request

PORT = 8000
APP = """import time, urllib.request
def app(environ, start):
    if environ["PATH_INFO"] == "/outer":
        time.sleep({before})
        body = urllib.request.urlopen("http://127.0.0.1:{other}/inner").read()
    else:
        time.sleep({inner})
        body = b"inner"
    start("200 OK", [("Content-Type", "text/plain")])
    return [body]
"""
ASYNC_APP = """import asyncio, urllib.request
async def app(scope, receive, send):
    if scope["type"] != "http":
        return
    ask = lambda: urllib.request.urlopen("http://127.0.0.1:8000/inner").read()
    if scope["path"] == "/outer":
        body = await asyncio.to_thread(ask) if {is_slow} else ask()
    else:
        await asyncio.sleep(600)
    await send(dict(type="http.response.start", status=200, headers=[]))
    await send(dict(type="http.response.body", body=b"inner"))
"""
SCRIPT = """<?php
if ($_SERVER["REQUEST_URI"] == "/outer") echo file_get_contents("http://127.0.0.1:8000/inner");
else sleep(600);
"""


def write(name, text):
    with open(name, "w", encoding="utf-8") as file:
        file.write(text)


def run(*words, **env):
    """Starts a program that is silent."""
    pid = os.fork()
    if pid == 0:
        os.dup2(os.open(os.devnull, os.O_RDWR), 2)
        os.dup2(2, 1)
        os.execvpe(words[0], words, {**os.environ, **env})
    return pid


def ask(*ports):
    """Has a process for each port ask the server there, once that is there."""
    for port in ports:
        while socket.socket().connect_ex(("127.0.0.1", port)):
            time.sleep(0.1)
    time.sleep(1)
    for port in ports:
        if os.fork() == 0:
            with open("/proc/self/comm", "w", encoding="utf-8") as file:
                file.write("client")
            urllib.request.urlopen(f"http://127.0.0.1:{port}/outer").read()
            os._exit(0)
    time.sleep(2)


def serve(port, name, other, *more, inner=600, before=0):
    write(f"{name}.py", APP.format(other=other, inner=inner, before=before))
    run("/usr/bin/gunicorn", "--timeout", "0", "-b", f"127.0.0.1:{port}", *more, f"{name}:app")


def asks_gunicorn(is_slow=False):
    """The only worker of a server asks that server."""
    serve(PORT, "sync", PORT, "-w", "2" if is_slow else "1")
    ask(PORT)


def asks_gunicorn_threads(is_slow=False):
    """The two threads of a worker ask its server."""
    serve(PORT, "threads", PORT, "-w", "1", "--threads", "4" if is_slow else "2")
    ask(PORT, PORT)


def asks_gunicorns(is_slow=False):
    """Two servers of a worker each ask each other."""
    serve(PORT, "first", PORT + 1, "-w", "1", before=2)
    serve(PORT + 1, "second", PORT, "-w", "2" if is_slow else "1", before=2)
    ask(PORT, PORT + 1)


def asks_php(is_slow=False):
    """The server that PHP brings asks itself."""
    write("index.php", SCRIPT)
    more = {"PHP_CLI_SERVER_WORKERS": "2"} if is_slow else {}
    run("php", "-d", "default_socket_timeout=-1", "-S", f"127.0.0.1:{PORT}", "index.php", **more)
    ask(PORT)


def asks_uvicorn(is_slow=False):
    """A server with an event loop asks itself in it, and in the other story by a thread."""
    write("loop.py", ASYNC_APP.format(is_slow=is_slow))
    run("/usr/bin/uvicorn", "--port", str(PORT), "loop:app")
    ask(PORT)
