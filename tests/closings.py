"""What a server says where it closes a connection, and where it keeps it open."""

import contextlib
import http.client
import time

from messages import BODY_LIMIT, CLOSE, METHOD, NO_POLICY, NO_ROUTE, REPORT, TOKEN, TOO_LARGE, chunks, code
from wire import FIRST, PATIENCE, SECOND, Closed, identifier, request

PAST_LIMIT = 1_048_576
HELD_LIMIT = 67_108_864
BUSY = code(503, "busy")
REPORTED = f"/fleet/vehicles/{identifier(4, 1)}"


def says_close(answer):
    """Whether each of its options of the connection (RFC 9110, section 7.6.1), of which there is one, is that it is closed."""
    return {it.lower() for it in answer.fields.get("connection", [])} == {"close"}


def last(link):
    """The answer on a connection, and what comes behind it until it is closed; a close without one."""
    try:
        answer = link.answer()
    except Closed:
        return CLOSE, b""
    return answer, link.rest()


def a_last_reply_says_so(server):
    """Each reply behind which the server closes says so, and the client sees it though it asked for no close."""
    body, cut = b" " * (BODY_LIMIT + 1), [b"transfer-encoding: chunked"]
    start = request("POST", "/fleet/events", lines=[it.decode() for it in cut]).replace(b"content-length: 0\r\n", b"")
    cases = {
        "one byte over the limit": (request("POST", "/fleet/events", body=body), TOO_LARGE),
        "as long as is read past": (request("POST", "/fleet/events", body=body[:-1] + b" " * PAST_LIMIT), TOO_LARGE),
        "chunks over the limit": (start + chunks(body, 65_536), TOO_LARGE),
        "chunks as long as are read past": (start + chunks(body[:-1] + b" " * PAST_LIMIT, 65_536), TOO_LARGE),
        "a chunk without a size": (start + b"\r\n", code(400, "bad_body")),
        "a head that is none": (b"GET /policies HTTP/1.1\r\nno colon\r\n\r\n", None),
    }
    for name, (sent, wanted) in cases.items():
        with server.link() as link:
            link.send(sent)
            answer, behind = last(link)
            if answer == CLOSE:
                if wanted == TOO_LARGE:
                    yield f"{name}: closed without an answer"
                continue
            if wanted == TOO_LARGE and not answer.is_by_the_server(*wanted):
                yield f"{name}: answered {answer}"
            if answer.status >= 400 and not says_close(answer):
                yield f"{name}: {answer} doesn't say that it is the last: {answer.fields}"
            if behind:
                yield f"{name}: behind {answer} comes {behind[:80]!r}"


def a_body_is_read_past_so_far(server):
    """Of a body that is too long a mebibyte more is read, and no more is waited for."""
    over = BODY_LIMIT + PAST_LIMIT + 1
    with server.link() as link:
        link.send(request("POST", "/fleet/events", body=b" " * over).replace(b"length: %d" % over, b"length: %d" % (over * 10)))
        answer, _ = last(link)
    if answer == CLOSE or not answer.is_by_the_server(*TOO_LARGE) or not says_close(answer):
        yield f"answered {answer}"


def a_refusal_keeps_the_connection(server):
    """A reply behind which the server doesn't close says nothing of it, and the next request is answered."""
    asked = [("GET", "/policies", "nobody", TOKEN), ("GET", "/nowhere", FIRST, NO_ROUTE), ("BREW", "/policies", FIRST, METHOD)]
    with server.link() as link:
        for method, target, token, wanted in asked:
            link.send(request(method, target, token) + request("GET", "/policies"))
            refused, answer = link.answer(), link.answer()
            if not refused.is_by_the_server(*wanted) or "connection" in refused.fields:
                yield f"{method} {target}: answered {refused}, {refused.fields}"
            if not answer.is_by_the_server(*NO_POLICY):
                yield f"behind it comes {answer}"


def a_client_that_keeps_connections(server):
    """`http.client` opens a new connection behind a reply that says that it is the last one."""
    kept = http.client.HTTPConnection("127.0.0.1", server.port, timeout=20)
    with contextlib.closing(kept):
        for body, wanted in ((b" " * (BODY_LIMIT + 1), 413), (b"{", 400), (REPORT, 200), (b" " * (BODY_LIMIT + 1), 413)):
            kept.request("POST", "/fleet/events", body, {"authorization": "Bearer alfa"})
            reply = kept.getresponse()
            reply.read()
            if reply.status != wanted:
                yield f"a body of {len(body)} is answered {reply.status}"
            kept.request("GET", "/policies", headers={"authorization": "Bearer alfa"})
            reply = kept.getresponse()
            if (reply.status, reply.read()) != NO_POLICY:
                yield f"the request behind it is answered {reply.status}"
        kept.request("DELETE", REPORTED, headers={"authorization": "Bearer alfa"})
        if kept.getresponse().read() == b"":
            yield "nothing is removed"


def a_busy_server(server):
    """Bodies that are awaited of one operator take what it may hold: one more request is told so, and another operator's isn't."""
    waiting = request("POST", "/fleet/events", lines=[f"content-length: {BODY_LIMIT}"]).replace(b"content-length: 0\r\n", b"")
    with contextlib.ExitStack() as stack:
        # A few more than it may hold, so that no small body comes between the last two of them.
        links = [stack.enter_context(server.link()) for _ in range(HELD_LIMIT // BODY_LIMIT + 4)]
        for link in links:
            link.send(waiting)
        refused = until_busy(server, lambda: stack.enter_context(server.link()).send(waiting))
        if refused is None:
            yield "it is never busy"
            return
        if not refused.is_by_the_server(*BUSY) or not says_close(refused):
            yield f"answered {refused}, {refused.fields}"
        other = server.ask("POST", "/fleet/events", SECOND, REPORT)
        if other.status != 200:
            yield f"another operator is answered {other}"
        reading = server.ask("GET", "/policies")
        if not reading.is_by_the_server(*NO_POLICY):
            yield f"a request without a body is answered {reading}"
        with server.link() as link:
            link.send(waiting)
            begun = time.monotonic()
            stopped, behind = last(link)
            took = time.monotonic() - begun
        if stopped == CLOSE or not stopped.is_by_the_server(*BUSY) or behind or took > 10:
            yield f"a body that stops is answered {stopped} after {took:.1f} s"
    server.ask("DELETE", REPORTED, SECOND)
    if not is_served_again(server):
        yield "it stays busy"


def until_busy(server, one_more):
    """The first answer to a report that isn't taken. Behind each that is taken one more body is awaited, since some of those before may
    have been refused for bodies of other connections that have gone since."""
    for _ in range(100 * PATIENCE):
        answer = server.ask("POST", "/fleet/events", body=REPORT)
        server.ask("DELETE", REPORTED)
        if answer.status != 200:
            return answer
        one_more()
        time.sleep(0.05)
    return None


def is_served_again(server):
    """Whether a report is taken in time, once those that waited have gone."""
    for _ in range(100 * PATIENCE):
        answer = server.ask("POST", "/fleet/events", body=REPORT)
        server.ask("DELETE", REPORTED)
        if answer.status == 200:
            return True
        time.sleep(0.05)
    return False


CLOSINGS = (
    a_last_reply_says_so,
    a_body_is_read_past_so_far,
    a_refusal_keeps_the_connection,
    a_client_that_keeps_connections,
    a_busy_server,
)
