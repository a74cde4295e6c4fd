"""Applications of the web: one that answers, and two that ask their own server within a request to /ask."""
import urllib.request


def plain(_, start):
    start("200 OK", [("Content-Type", "text/plain")])
    return [b"ok\n"]


def asks(environ, start):
    if environ["PATH_INFO"] == "/ask":
        urllib.request.urlopen("http://127.0.0.1:8080/").read()
    return plain(environ, start)


async def asked(scope, _, send):
    if scope["type"] == "http":
        if scope["path"] == "/ask":
            urllib.request.urlopen("http://127.0.0.1:8080/").read()
        await send({"type": "http.response.start", "status": 200, "headers": []})
        await send({"type": "http.response.body", "body": b"ok\n"})
