"""The page of web/ before a running server, on one origin, for trying: what nginx does with deploy/nginx.conf.

    serve.py PORT BACKEND [--settings FILE] [--app CONFIGURATION]

Serves the files of web/, and passes every other request on to BACKEND, as 127.0.0.1:8080. Prints `ready`. FILE takes the place of
web/settings.json. With --app it answers what is asked at /app/ by a GET too: who asks, withdrawals and drafts, and how operators stand,
by the server's configuration, by what it has passed on and by what each operator is answered, so that the page can be tried with a
server that has none of these. How operators stood at a moment that is over BACKEND itself is asked; where it has no such path they are
told as of now, as by a server that doesn't know of the query.
"""

import argparse
import hashlib
import http.client
import json
import os
import re
import sys
import threading
import time
from http.server import BaseHTTPRequestHandler, ThreadingHTTPServer

TOP = os.path.dirname(os.path.dirname(os.path.dirname(os.path.abspath(__file__))))
TYPES = {
    ".html": "text/html; charset=utf-8",
    ".css": "text/css; charset=utf-8",
    ".js": "text/javascript; charset=utf-8",
    ".json": "application/json",
}
POLICY = (
    "default-src 'none'; script-src 'self'; worker-src 'self'; style-src 'self'; img-src 'self' data:{tiles}; connect-src 'self'; "
    "form-action 'none'; base-uri 'none'; frame-ancestors 'none'"
)
STANDING = re.compile(r"/app/(compliance|fleet)(?:/([^/?]+))?")
DRAFT = re.compile(r"/drafts/(policies|geographies)/([^/?]+)")
SECONDS = 120


def digits(identifier):
    """An identifier's 32 digits, by which identifiers are compared."""
    return re.sub(r"^urn:uuid:|[{}-]", "", identifier.lower())


class Backend:
    """The server behind, with a connection for each thread."""

    def __init__(self, address):
        self.address, self.local = address, threading.local()

    def ask(self, method, target, authorization, body):
        """Its status and body; 502 where it can't be reached. A request isn't sent twice, but for one on a connection that was idle."""
        link, is_new = getattr(self.local, "link", None), False
        if link is None:
            link, is_new = http.client.HTTPConnection(self.address, timeout=SECONDS), True
            self.local.link = link
        try:
            link.request(method, target, body, {"authorization": authorization} if authorization else {})
            answer = link.getresponse()
            return answer.status, answer.read()
        except (http.client.HTTPException, OSError) as fault:
            link.close()
            self.local.link = None
            if not is_new and isinstance(fault, (http.client.RemoteDisconnected, ConnectionError)):
                return self.ask(method, target, authorization, body)
            return 502, b""


class App:
    """What a page asks beside the protocol, by the configuration and by what was passed on."""

    def __init__(self, file, names):
        self.file, self.names = file, names
        self.lock, self.withdrawn, self.drafts = threading.Lock(), {}, {}

    @property
    def configuration(self):
        """The configuration, as it now is."""
        with open(self.file, encoding="utf-8") as text:
            return json.load(text)

    @property
    def oversight(self):
        """What the author is shown."""
        return self.configuration.get("oversight", "none")

    def named(self, operator):
        """An operator's identifier and name."""
        return {"id": operator["id"], "name": operator.get("name") or self.names.get(operator["id"], operator["id"][:8])}

    def whoami(self, token):
        """Whose token it is."""
        both, operators = {"oversight": self.oversight, "zone": self.configuration["zone"]}, self.configuration["operators"]
        if token == self.configuration["author"]:
            return {"role": "author", **both, "operators": [self.named(it) for it in operators]}
        return next({"role": "operator", **both, **self.named(it)} for it in operators if it["token"] == token)

    def standing(self, kind, operator, token, backend):
        """What an operator is answered to /compliance or /fleet/vehicles, for itself or for the author; with no operator named, and for the
        author, what all of them are answered to the former."""
        route, operators = {"compliance": "/compliance", "fleet": "/fleet/vehicles"}[kind], self.configuration["operators"]
        if token != self.configuration["author"]:
            return backend.ask("GET", route, f"Bearer {token}", None) if operator is None else (403, b'{"error":"role"}')
        if self.oversight != "vehicles" and (kind == "fleet" or self.oversight == "none"):
            return 403, b'{"error":"role"}'
        if operator is None:
            if kind == "fleet":
                return 403, b'{"error":"role"}'
            bodies = [json.loads(backend.ask("GET", route, f"Bearer {it['token']}", None)[1]) for it in operators]
            told = [{"compliance": body, **self.named(it)} for it, body in zip(operators, bodies)]
            return 200, json.dumps({"at": int(time.time() * 1000), "operators": told}).encode()
        tokens = [it["token"] for it in operators if digits(it["id"]) == digits(operator)]
        return backend.ask("GET", route, f"Bearer {tokens[0]}", None) if tokens else (404, b'{"error":"not_found"}')

    def note(self, method, target, body, answer):
        """Keeps what a request that was answered 200 has changed."""
        with self.lock:
            draft = DRAFT.fullmatch(target)
            if draft and method in ("PUT", "DELETE"):
                self.drafts.pop((draft[1], digits(draft[2])), None)
                if method == "PUT":
                    self.drafts[draft[1], digits(draft[2])] = None
            if method == "POST" and target == "/publish":
                asked = json.loads(body)
                for policy in asked.get("withdraw") or []:
                    self.withdrawn.setdefault(digits(policy), json.loads(answer)["published_date"])
                for kind in ("policies", "geographies"):
                    for it in asked.get(kind) or []:
                        self.drafts.pop((kind, digits(it)), None)

    def answer(self, target, authorization, backend):
        """The answer to a target of /app/, for whoever asks: an operator is told of no policy that it isn't shown."""
        token = authorization.partition(" ")[2]
        status, told = backend.ask("GET", "/policies", authorization, None)
        if status != 200:
            return status, told
        standing = STANDING.fullmatch(target)
        if standing:
            return self.standing(standing[1], standing[2], token, backend)
        if target == "/app/whoami":
            return 200, json.dumps(self.whoami(token)).encode()
        if target == "/app/withdrawals":
            shown = [it["policy_id"] for it in json.loads(told)["policies"]]
            list_ = [{"policy_id": it, "withdrawn": self.withdrawn[digits(it)]} for it in shown if digits(it) in self.withdrawn]
            return 200, json.dumps({"withdrawals": list_}).encode()
        if target == "/app/drafts" and token == self.configuration["author"]:
            asked = [(kind, it, backend.ask("GET", f"/drafts/{kind}/{it}", authorization, None)) for kind, it in sorted(self.drafts)]
            names = {"policies": "policy", "geographies": "geography"}
            found = [{"id": it, "kind": names[kind]} for kind, it, (status, _) in asked if status == 200]
            return 200, json.dumps({"drafts": found}).encode()
        return (403, b'{"error":"role"}') if target == "/app/drafts" else (404, b'{"error":"no_route"}')


def files(settings):
    """The page's files by their paths: content type, body, and tag."""
    found = {}
    for name in sorted(os.listdir(f"{TOP}/web")):
        kind = TYPES.get(os.path.splitext(name)[1])
        if kind:
            with open(settings if settings and name == "settings.json" else f"{TOP}/web/{name}", "rb") as file:
                body = file.read()
            found["/" if name == "index.html" else f"/{name}"] = kind, body, f'"{hashlib.sha256(body).hexdigest()[:32]}"'
    return found


def policy_of(settings):
    """The content security policy, with the origin of the tiles where there is one."""
    with open(settings or f"{TOP}/web/settings.json", encoding="utf-8") as text:
        origin = re.match(r"https?://[^/]+", json.load(text).get("tiles", ""))
    return POLICY.format(tiles=f" {origin[0]}" if origin else "")


class Handler(BaseHTTPRequestHandler):
    """A connection of a browser."""

    protocol_version = "HTTP/1.1"
    wbufsize = -1  # head and body go out together
    disable_nagle_algorithm = True
    pages, policy, backend, app = {}, "", None, None

    def log_message(self, *_):
        """Nothing is logged: a log would hold tokens."""

    def send(self, status, body, **fields):
        """An answer with what all answers have."""
        self.send_response(status)
        for name, value in {"x_content_type_options": "nosniff", "referrer_policy": "no-referrer", **fields}.items():
            self.send_header(name.replace("_", "-"), value)
        self.send_header("content-length", str(len(body)))
        self.end_headers()
        if self.command != "HEAD":
            self.wfile.write(body)

    def page(self, kind, body, tag):
        """A file of the page, or that it is still the same."""
        fields = {"content_type": kind, "etag": tag, "cache_control": "no-cache", "content_security_policy": self.policy}
        if self.headers.get("if-none-match") == tag:
            return self.send(304, b"", **fields)
        return self.send(200, body, **fields)

    def past(self, authorization):
        """What the server behind answers of a moment that is over."""
        return self.backend.ask("GET", self.path, authorization, None)

    def answer(self):
        """A file, or what the server behind answers."""
        body = self.rfile.read(int(self.headers.get("content-length") or 0))
        path, authorization = self.path.partition("?")[0], self.headers.get("authorization", "")
        if self.command in ("GET", "HEAD") and path in self.pages:
            return self.page(*self.pages[path])
        if self.app and path.startswith("/app/"):
            status, told = self.past(authorization) if STANDING.fullmatch(path) and "?at=" in self.path else (404, b"")
            if status == 404 and b'"not_found"' not in told:
                status, told = self.app.answer(path, authorization, self.backend)
        else:
            status, told = self.backend.ask(self.command, self.path, authorization, body)
            if self.app and status == 200:
                self.app.note(self.command, path, body, told)
        kind = "application/json" if told else "text/plain"
        return self.send(status, told, content_type=kind, cache_control="no-store")

    do_GET = do_HEAD = do_PUT = do_POST = do_DELETE = answer


class Server(ThreadingHTTPServer):
    """A thread for each connection; a browser that goes away in between is no fault."""

    daemon_threads = True

    def handle_error(self, request, client_address):
        if not isinstance(sys.exc_info()[1], ConnectionError):
            super().handle_error(request, client_address)


def server(port, backend, settings=None, configuration=None):
    """The server, which listens and has to be told to serve_forever()."""
    names = {}
    if settings:
        with open(settings, encoding="utf-8") as text:
            names = json.load(text)["operators"]
    app = App(configuration, names) if configuration else None
    fields = {"pages": files(settings), "policy": policy_of(settings), "backend": Backend(backend), "app": app}
    return Server(("127.0.0.1", port), type("Page", (Handler,), fields))


def main():
    parser = argparse.ArgumentParser(description=__doc__, formatter_class=argparse.RawDescriptionHelpFormatter)
    parser.add_argument("port", type=int)
    parser.add_argument("backend")
    parser.add_argument("--settings")
    parser.add_argument("--app", metavar="CONFIGURATION")
    options = parser.parse_args()
    it = server(options.port, options.backend, options.settings, options.app)
    print("ready", flush=True)
    it.serve_forever()


if __name__ == "__main__":
    main()
