#!/usr/bin/env python3
"""The page over HTTP: starts a program that serves it, as ruffletuff, and asks for each file of web/.

    page.py PROGRAM

Expects for each file, at / or at its name: 200 with the bytes of web/, its type, a strong tag that is the SHA-256 of the bytes, and
the fields that bind a browser; the same without the bytes for HEAD (RFC 9110, section 9.3.2); 304 without a body where `if-none-match`
names the tag, weak or in a list, or is `*` (section 13.1.2), and 200 where it names another; 405 with `allow` for other methods
(section 15.5.6). A query changes nothing. What the author's view says of since when a rule is broken is in the files that are served,
and no word that reads as a deadline. No path of the protocol, and none that is no file's, is answered by the page. With a member
`page` the settings are what it gives, and the content policy has the origin of its tiles, and no more, beside the page's own pictures.
Prints what is otherwise, and last 'N passed, M failed'; ends with 1 where one failed.
"""

import hashlib
import json
import os
import sys

from kept import Alone, Tried
from wire import Link, configuration

TOP = os.path.dirname(os.path.dirname(os.path.abspath(__file__)))
TYPES = {
    ".html": "text/html; charset=utf-8",
    ".css": "text/css; charset=utf-8",
    ".js": "text/javascript; charset=utf-8",
    ".json": "application/json",
}
SOURCES = (
    "default-src 'none'; script-src 'self'; worker-src 'self'; style-src 'self'; img-src 'self' data:; connect-src 'self'; "
    "form-action 'none'; base-uri 'none'; frame-ancestors 'none'"
)
PAGE = {
    "title": "<b>River</b> City",
    "view": {"lat": 45.52, "lng": -122, "zoom": 12},
    "tiles": "https://tiles.example.org:8443/{z}/{x}/{y}.png?key=a",
    "attribution": "© the makers",
}
TOLD = {"city": PAGE["title"], **{name: PAGE[name] for name in ("view", "tiles", "attribution")}}
SOURCES_WITH_TILES = (
    "default-src 'none'; script-src 'self'; worker-src 'self'; style-src 'self'; img-src 'self' data: https://tiles.example.org:8443; "
    "connect-src 'self'; form-action 'none'; base-uri 'none'; frame-ancestors 'none'"
)
# What is said of since when a rule is broken and by how much, and of the button for all of them; and what isn't said any more.
SAID = {
    "/": ('id="askeach"', "Since when, each?"),
    "/cards.js": ("this time since", "not known yet: already broken when this page first looked", "what stood before that isn’t kept",
                  "it wasn’t open", "the policy wasn’t in force", '"By how much", "Broken since (UTC)",',
                  '"Broken since (local)", "Broken since (in words)"]'),
    "/rules.js": ("too few", "too many", '"long"', '"short"'),
}
UNSAID = ("not yet at", "`before ${", " or before${")
OTHERS = (
    *("/policies", "/geographies", "/fleet/vehicles", "/fleet/events", "/compliance", "/publish", "/drafts/policies/page.css"),
    *("/index.html", "/page", "/page.css/", "//", "/web/page.css", "/page.CSS", "/%70age.css", "/../page.css"),
)


def ask(link, method, path, *held):
    """The status, the fields and the body of an answer. A body behind HEAD or 304 would break the next one."""
    lines = [f"{method} {path} HTTP/1.1", "host: x", *(f"if-none-match: {it}" for it in held), "", ""]
    link.send("\r\n".join(lines).encode())
    answer = link.answer(method)
    return answer.status, {name: ", ".join(texts) for name, texts in answer.fields.items()}, answer.body


def expect(is_so, what):
    """Tells a fault, where something isn't so."""
    if not is_so:
        raise ValueError(what)


def version(fields, tag, what):
    """The fields that tell a version of a file."""
    expect(fields.get("etag") == tag, f"{what}: etag {fields.get('etag')}, not {tag}")
    expect(fields.get("cache-control") == "no-cache", f"{what}: cache-control {fields.get('cache-control')}")


def whole(fields, kind, length, sources, what):
    """The fields of a whole file."""
    wanted = {"content-type": kind, "content-length": str(length), "x-content-type-options": "nosniff", "referrer-policy": "no-referrer",
              "content-security-policy": sources}
    for name, text in wanted.items():
        expect(fields.get(name) == text, f"{what}: {name} is {fields.get(name)}, not {text}")


def file_is_told(link, path, kind, text, sources=SOURCES):
    """One file, in each way in which it is asked for."""
    tag = f'"{hashlib.sha256(text).hexdigest()}"'
    for method in ("GET", "HEAD"):
        for target in (path, f"{path}?v=1"):
            status, fields, body = ask(link, method, target)
            expect(status == 200, f"{method} {target}: {status}")
            expect(body == (text if method == "GET" else b""), f"{method} {target}: another body")
            version(fields, tag, f"{method} {target}")
            whole(fields, kind, len(text), sources, f"{method} {target}")
        for held in (tag, f"W/{tag}", f'"a,b" , {tag}', f'W/"x",W/{tag},"y"', "*", " * "):
            status, fields, body = ask(link, method, path, held)
            expect((status, body) == (304, b""), f"{method} {path}, if-none-match {held}: {status}, {len(body)} bytes")
            version(fields, tag, f"{method} {path}, if-none-match {held}")
        status, _, body = ask(link, method, path, '"x"', tag)
        expect((status, body) == (304, b""), f"{method} {path}, two fields if-none-match: {status}")
        for held in (tag[1:-1], '"other"', f'"{tag[1:-2]}"', "", '"*"'):
            status, _, body = ask(link, method, path, held)
            expect(status == 200, f"{method} {path}, if-none-match {held}: {status}")
    for method in ("POST", "PUT", "DELETE", "PATCH", "OPTIONS"):
        status, fields, body = ask(link, method, path, "*")
        expect((status, body) == (405, b'{"error":"method"}'), f"{method} {path}: {status} {body}")
        expect(fields.get("allow") == "GET, HEAD", f"{method} {path}: allow {fields.get('allow')}")


def a_whole_uri_is_told(link):
    """A whole URI without a path is that of `/` (RFC 9110, section 4.2.3)."""
    with open(f"{TOP}/web/index.html", "rb") as file:
        text = file.read()
    for target in ("http://x", "http://x/", "http://x?v=1"):
        status, _, body = ask(link, "GET", target)
        expect((status, body) == (200, text), f"GET {target}: {status}")


def others_are_untouched(link):
    """Paths of the protocol, and paths of nothing, are answered as without a page: an anonymous client's token is refused."""
    for path in OTHERS:
        for method in ("GET", "HEAD", "POST"):
            status, fields, body = ask(link, method, path, "*")
            expect(status == 401, f"{method} {path}: {status}, not 401")
            expect(body == (b"" if method == "HEAD" else b'{"error":"token"}'), f"{method} {path}: {body}")
            expect("etag" not in fields, f"{method} {path}: a tag")


def since_is_told(link):
    """The words of since when a rule is broken."""
    for path, words in SAID.items():
        status, _, body = ask(link, "GET", path)
        text = body.decode()
        expect(status == 200, f"GET {path}: {status}")
        for word in words:
            expect(word in text, f"GET {path}: nothing of {word}")
        for word in UNSAID:
            expect(word not in text, f"GET {path}: {word}")


def settings_are_given(link):
    """What the configuration's member `page` gives; the files are the same but for the policy."""
    status, _, body = ask(link, "GET", "/settings.json")
    expect(status == 200, f"GET /settings.json: {status}")
    expect(json.loads(body) == TOLD, f"GET /settings.json: {body}")
    file_is_told(link, "/settings.json", TYPES[".json"], body, SOURCES_WITH_TILES)
    with open(f"{TOP}/web/index.html", "rb") as file:
        file_is_told(link, "/", TYPES[".html"], file.read(), SOURCES_WITH_TILES)


def settings_are_usual(link):
    """A member `page` that is null is as none."""
    with open(f"{TOP}/web/settings.json", "rb") as file:
        file_is_told(link, "/settings.json", TYPES[".json"], file.read())


def asked(city, call, *words):
    """Asks over a connection of its own. Nothing comes behind the answers."""
    with Link(city.port) as link:
        call(link, *words)
        expect(not link.kept, f"more than the answers: {link.kept[:80]}")
    yield from ()


def main():
    """Asks for all."""
    if len(sys.argv) != 2:
        sys.exit(__doc__)
    tried = Tried()
    with Alone(os.path.abspath(sys.argv[1])) as city:
        for name in sorted(os.listdir(f"{TOP}/web")):
            with open(f"{TOP}/web/{name}", "rb") as file:
                text = file.read()
            path, kind = "/" if name == "index.html" else f"/{name}", TYPES[os.path.splitext(name)[1]]
            tried.one(name, asked(city, file_is_told, path, kind, text))
        tried.one("a whole URI", asked(city, a_whole_uri_is_told))
        tried.one("other paths", asked(city, others_are_untouched))
        tried.one("since when", asked(city, since_is_told))
    for what, page, call in (("a page", PAGE, settings_are_given), ("no page", None, settings_are_usual)):
        with Alone(os.path.abspath(sys.argv[1]), json.dumps({**json.loads(configuration(2)), "page": page}).encode()) as city:
            tried.one(what, asked(city, call))
    return tried.told()


if __name__ == "__main__":
    sys.exit(main())
