"""What may come first on a connection, each with all that may be answered: the protocol's own answers, and where a message is no
HTTP what RFC 9110 and 9112 leave open. Each asks for a close, so that a close follows its answer."""

import gzip

from wire import report

HEAD_LIMIT = 65_536
BODY_LIMIT = 1_048_576

CLOSE = "a close"
NO_POLICY = (200, b'{"policies":[],"revision":0}')
NEW = (200, b'{"result":"new"}')


def code(status, name):
    return status, f'{{"error":"{name}"}}'.encode()


TOKEN, NO_ROUTE, METHOD = code(401, "token"), code(404, "no_route"), code(405, "method")
BAD_JSON, TOO_LARGE = code(400, "bad_json"), code(413, "too_large")

# No HTTP at all: 400, whatever stands in it, and the connection is closed, or it is just closed.
NO_HTTP = (400, CLOSE)
NO_VERSION = (400, 505, CLOSE)
NO_BODY = (400, CLOSE)


def head(*lines, first=b"GET /policies HTTP/1.1", token=b"authorization: Bearer alfa", host=b"host: x"):
    """A GET that asks for a close, with further lines as they stand."""
    return b"\r\n".join(it for it in (first, host, token, *lines, b"connection: close", b"", b"") if it is not None)


HEADS = {
    "a plain request": (head(), (NO_POLICY,)),
    "a line without a colon": (head(b"no colon here"), NO_HTTP),
    "a blank before the colon": (head(b"x-a : b"), NO_HTTP),
    "a blank within a name": (head(b"x a: b"), NO_HTTP),
    "a name without a letter": (head(b": b"), NO_HTTP),
    "a folded line": (head(b"x-a: b\r\n c"), NO_HTTP + (NO_POLICY,)),
    "a folded first line": (head(first=b"GET /policies HTTP/1.1\r\n x-a: b"), NO_HTTP + (NO_POLICY,)),
    "a control byte in a name": (head(b"x\x01a: b"), NO_HTTP),
    "a control byte in a value": (head(token=b"authorization: Bearer al\x01fa"), NO_HTTP + (TOKEN,)),
    "a delete byte in a value": (head(token=b"authorization: Bearer al\x7ffa"), NO_HTTP + (TOKEN,)),
    "NUL in a name": (head(b"x\0a: b"), NO_HTTP),
    "NUL in a value": (head(token=b"authorization: Bearer al\0fa"), NO_HTTP + (TOKEN,)),
    "NUL in the target": (head(first=b"GET /poli\0cies HTTP/1.1"), NO_HTTP),
    "NUL in the method": (head(first=b"G\0T /policies HTTP/1.1"), NO_HTTP),
    "a bare CR in a value": (head(token=b"authorization: Bearer al\rfa"), NO_HTTP + (TOKEN,)),
    "a bare CR between lines": (head(b"x-a: b\rx-b: c"), NO_HTTP + (NO_POLICY,)),
    "a bare CR in the target": (head(first=b"GET /poli\rcies HTTP/1.1"), NO_HTTP),
    "a bare LF between lines": (head(b"x-a: b\nx-b: c"), NO_HTTP + (NO_POLICY,)),
    "a bare LF before the token": (head(b"x-a: b\nauthorization: Bearer alfa", token=None), NO_HTTP + (NO_POLICY, TOKEN)),
    "bare LFs alone": (head().replace(b"\r\n", b"\n"), NO_HTTP + (NO_POLICY,)),
    "a byte over 127 in a value": (head(b"x-a: \xff"), (NO_POLICY,)),
    "an empty line in front": (b"\r\n" + head(), NO_HTTP + (NO_POLICY,)),
    "no host": (head(host=None), NO_HTTP),
    "two hosts": (head(b"host: y"), NO_HTTP),
    "the first bytes of TLS": (b"\x16\x03\x01\x02\x00\x01\x00\x01\xfc\x03\x03" + bytes(range(200)), NO_HTTP),
    "random bytes": (bytes(it * 167 % 256 for it in range(1000)) + b"\r\n\r\n", NO_HTTP),
    "a body that GET ignores": (head(b"content-length: 1") + b"{", (NO_POLICY,)),
    "an unknown method": (head(first=b"BREW /policies HTTP/1.1"), (METHOD,)),
    "an unknown method on no route": (head(first=b"BREW /nowhere HTTP/1.1"), (NO_ROUTE,)),
    "a method in small letters": (head(first=b"get /policies HTTP/1.1"), (METHOD,)),
    "OPTIONS": (head(first=b"OPTIONS /policies HTTP/1.1"), (METHOD,)),
    "PATCH": (head(first=b"PATCH /policies HTTP/1.1"), (METHOD,)),
    "TRACE": (head(first=b"TRACE /policies HTTP/1.1"), (METHOD,)),
    "a method that is no token": (head(first=b"GE(T /policies HTTP/1.1"), NO_HTTP),
    "a method of 300 letters": (head(first=b"G" * 300 + b" /policies HTTP/1.1"), NO_HTTP + (METHOD, 501)),
    "no method": (head(first=b"/policies HTTP/1.1"), NO_VERSION),
    "no target": (head(first=b"GET HTTP/1.1"), NO_VERSION),
    "a blank in the target": (head(first=b"GET /poli cies HTTP/1.1"), NO_VERSION),
    "two blanks behind the method": (head(first=b"GET  /policies HTTP/1.1"), NO_VERSION + (NO_POLICY,)),
    "version 0.9 without a version": (b"GET /policies\r\n\r\n", NO_VERSION),
    "version 0.9": (head(first=b"GET /policies HTTP/0.9"), NO_VERSION),
    "version 1.0": (head(first=b"GET /policies HTTP/1.0", host=None).replace(b"connection: close\r\n", b""), (NO_POLICY,)),
    "version 1.2": (head(first=b"GET /policies HTTP/1.2"), NO_VERSION + (NO_POLICY,)),
    "version 2.0": (head(first=b"GET /policies HTTP/2.0"), NO_VERSION),
    "the preface of version 2": (b"PRI * HTTP/2.0\r\n\r\nSM\r\n\r\n\0\0\0\4\0\0\0\0\0", NO_VERSION),
    "a version of three numbers": (head(first=b"GET /policies HTTP/1.1.1"), NO_VERSION),
    "a version in small letters": (head(first=b"GET /policies http/1.1"), NO_VERSION),
    "a whole URI": (head(first=b"GET http://x/policies HTTP/1.1"), (NO_POLICY,)),
    "a whole URI with a query": (head(first=b"GET http://x:80/policies?a=b HTTP/1.1"), (NO_POLICY,)),
    "a whole URI without a path": (head(first=b"GET http://x HTTP/1.1"), (NO_ROUTE,)),
    "a whole URI of no route": (head(first=b"GET http://x/nowhere HTTP/1.1"), (NO_ROUTE,)),
    "the target * of GET": (head(first=b"GET * HTTP/1.1"), NO_HTTP + (NO_ROUTE,)),
    "the target * of OPTIONS": (head(first=b"OPTIONS * HTTP/1.1"), (NO_ROUTE,)),
    "a target of CONNECT": (head(first=b"CONNECT x:80 HTTP/1.1"), NO_HTTP + (NO_ROUTE, METHOD, 501)),
    "a target without a slash": (head(first=b"GET policies HTTP/1.1"), NO_HTTP + (NO_ROUTE,)),
    "two slashes": (head(first=b"GET //policies HTTP/1.1"), (NO_ROUTE,)),
    "a slash at the end": (head(first=b"GET /policies/ HTTP/1.1"), (NO_ROUTE,)),
    "a path that is encoded": (head(first=b"GET /poli%63ies HTTP/1.1"), (NO_ROUTE,)),
    "an identifier that is encoded": (head(first=b"GET /policies/%2d HTTP/1.1"), (code(400, "bad_id"),)),
    "a query": (head(first=b"GET /policies?a=b&/?c HTTP/1.1"), (NO_POLICY,)),
    "a query of no text": (head(first=b"GET /policies?\xff HTTP/1.1"), NO_HTTP + (NO_POLICY,)),
    "a path of no text": (head(first=b"GET /poli\xffcies HTTP/1.1"), NO_HTTP + (NO_ROUTE,)),
    "no token": (head(token=None), (TOKEN,)),
    "a token of nobody": (head(token=b"authorization: Bearer nobody"), (TOKEN,)),
    "a token of nobody on no route": (head(token=None, first=b"GET /nowhere HTTP/1.1"), (TOKEN,)),
    "the front of a token": (head(token=b"authorization: Bearer alf"), (TOKEN,)),
    "a token in capitals": (head(token=b"authorization: Bearer ALFA"), (TOKEN,)),
    "an empty token": (head(token=b"authorization: Bearer "), (TOKEN,)),
    "a scheme alone": (head(token=b"authorization: Bearer"), (TOKEN,)),
    "a token alone": (head(token=b"authorization: alfa"), (TOKEN,)),
    "an empty value": (head(token=b"authorization:"), (TOKEN,)),
    "another scheme": (head(token=b"authorization: Basic Y2l0eTphbGZh"), (TOKEN,)),
    "the scheme in another case": (head(token=b"authorization: bEaReR alfa"), (NO_POLICY,)),
    "the name in another case": (head(token=b"AuthorizatioN: Bearer alfa"), (NO_POLICY,)),
    "blanks round the value": (head(token=b"authorization:\t  Bearer alfa \t"), (NO_POLICY,)),
    "no blank before the value": (head(token=b"authorization:Bearer alfa"), (NO_POLICY,)),
    "two blanks before the token": (head(token=b"authorization: Bearer  alfa"), (TOKEN,)),
    "a tab before the token": (head(token=b"authorization: Bearer\talfa"), (TOKEN,)),
    "a word behind the token": (head(token=b"authorization: Bearer alfa bravo"), (TOKEN,)),
    "a list of tokens": (head(token=b"authorization: Bearer alfa, Bearer alfa"), (TOKEN,)),
    "the token twice": (head(b"authorization: Bearer alfa"), (TOKEN,)),
    "two tokens": (head(b"authorization: Bearer bravo"), (TOKEN,)),
    "a token in the query": (head(token=None, first=b"GET /policies?access_token=alfa HTTP/1.1"), (TOKEN,)),
}


def padded(length):
    """A GET whose head has this length."""
    bare = head(b"x-pad: ")
    return head(b"x-pad: " + b"a" * (length - len(bare)))


TOO_LONG = (400, 414, 431, CLOSE)

HEADS |= {
    "a head at its limit": (padded(HEAD_LIMIT), (NO_POLICY,)),
    "a head one over its limit": (padded(HEAD_LIMIT + 1), TOO_LONG),
    "a head of a megabyte": (padded(1_000_000), TOO_LONG),
    "a target over the limit of a head": (head(first=b"GET /" + b"a" * HEAD_LIMIT + b" HTTP/1.1"), TOO_LONG),
    "a head of ten thousand lines": (head(*[b"x-a: b"] * 10_000), TOO_LONG),
}


def post(lines, body, token=b"authorization: Bearer alfa", first=b"POST /fleet/events HTTP/1.1"):
    """A POST that asks for a close, with a body as it stands."""
    return head(*lines, token=token, first=first) + body


def sized(body, length=None, **options):
    return post([b"content-length: %d" % (len(body) if length is None else length)], body, **options)


def chunked(body, lines=(), **options):
    return post([b"transfer-encoding: chunked", *lines], body, **options)


def chunks(body, size, mark=b"%x\r\n", last=b"0\r\n\r\n"):
    """A body in chunks of a size."""
    parts = [body[it : it + size] for it in range(0, len(body), size)]
    return b"".join(mark % len(it) + it + b"\r\n" for it in parts) + last


REPORT = report(1)
WHOLE = chunks(REPORT, len(REPORT))
ZIPPED = gzip.compress(REPORT)
SPACES = b" " * BODY_LIMIT

BODIES = {
    "a body": (sized(REPORT), (NEW,)),
    "one chunk": (chunked(WHOLE), (NEW,)),
    "chunks of a byte": (chunked(chunks(REPORT, 1)), (NEW,)),
    "chunks with extensions": (chunked(chunks(REPORT, 20, b"%x;a=b;c\r\n", b"0;d\r\n\r\n")), (NEW,)),
    "chunks with quoted extensions": (chunked(chunks(REPORT, 20, b'%x;a="b;c\\"d"\r\n')), (NEW,)),
    "sizes with zeros in front and capitals": (chunked(chunks(REPORT, 20, b"000%X\r\n")), (NEW,)),
    "the coding in capitals": (post([b"transfer-encoding: CHUNKED"], WHOLE), (NEW,)),
    "trailers": (chunked(chunks(REPORT, 20, last=b"0\r\nx-a: b\r\nx-b: c\r\n\r\n")), (NEW,)),
    "a token among the trailers": (
        chunked(chunks(REPORT, 20, last=b"0\r\nauthorization: Bearer alfa\r\n\r\n"), token=None),
        (TOKEN,),
    ),
    "no body": (post([], b""), (BAD_JSON,)),
    "no body in chunks": (chunked(b"0\r\n\r\n"), (BAD_JSON,)),
    "the same length twice": (post([b"content-length: %d" % len(REPORT)] * 2, REPORT), NO_BODY + (NEW,)),
    "the same length in a list": (post([b"content-length: %d, %d" % ((len(REPORT),) * 2)], REPORT), NO_BODY + (NEW,)),
    "a chunk that has no size": (chunked(b"\r\n" + WHOLE), NO_BODY),
    "a size that is no number": (chunked(b"zz\r\n" + WHOLE), NO_BODY),
    "a size with a sign": (chunked(b"-1\r\n" + WHOLE), NO_BODY),
    "a size in another notation": (chunked(chunks(REPORT, 20, b"0x%x\r\n")), NO_BODY),
    "a chunk longer than its size": (chunked(b"%x\r\n%sx\r\n0\r\n\r\n" % (len(REPORT), REPORT)), NO_BODY),
    "a chunk that no line ends": (chunked(b"%x\r\n%s0\r\n\r\n" % (len(REPORT), REPORT)), NO_BODY),
    "a chunk that two other bytes end": (chunked(b"%x\r\n%sxy0\r\n\r\n" % (len(REPORT), REPORT)), NO_BODY),
    "a size that LF alone ends": (chunked(chunks(REPORT, 20, b"%x\n")), NO_BODY),
    "a size that CR alone ends": (chunked(chunks(REPORT, 20, b"%x\r")), NO_BODY),
    "a size of 64 bits": (chunked(b"ffffffffffffffff\r\n" + REPORT), NO_BODY + (413,)),
    "a size of 68 bits": (chunked(b"10000000000000000\r\n" + REPORT), NO_BODY + (413,)),
    "a size of a thousand digits": (chunked(b"1" * 1000 + b"\r\n" + REPORT), NO_BODY + (413,)),
    "an extension of a megabyte": (chunked(chunks(REPORT, 200, b"%x;" + b"a" * 1_000_000 + b"\r\n")), NO_BODY + (413, 431, NEW)),
    "trailers of a megabyte": (chunked(chunks(REPORT, 200, last=b"0\r\nx: " + b"a" * 1_000_000 + b"\r\n\r\n")), NO_BODY + (413, 431, NEW)),
    "both lengths at once": (post([b"content-length: 4", b"transfer-encoding: chunked"], WHOLE), NO_BODY + (NEW,)),
    "both lengths, the other way round": (post([b"transfer-encoding: chunked", b"content-length: 4"], WHOLE), NO_BODY + (NEW,)),
    "both lengths with a request behind": (
        post([b"content-length: 4", b"transfer-encoding: chunked"], WHOLE + head()).replace(b"connection: close\r\n", b"", 1),
        NO_BODY + (NEW,),
    ),
    "two lengths that differ": (post([b"content-length: %d" % len(REPORT), b"content-length: 4"], REPORT), NO_BODY),
    "a list of lengths that differ": (post([b"content-length: %d, 4" % len(REPORT)], REPORT), NO_BODY),
    "a negative length": (post([b"content-length: -1"], REPORT), NO_BODY),
    "a length with a sign": (post([b"content-length: +%d" % len(REPORT)], REPORT), NO_BODY),
    "a length in another notation": (post([b"content-length: 0x%x" % len(REPORT)], REPORT), NO_BODY),
    "an empty length": (post([b"content-length:"], REPORT), NO_BODY),
    "a length of two words": (post([b"content-length: 1 %d" % len(REPORT)], REPORT), NO_BODY),
    "a length of 63 bits": (sized(REPORT, 2**63 - 1), NO_BODY + (413,)),
    "a length of 64 bits": (sized(REPORT, 2**64 + len(REPORT)), NO_BODY + (413,)),
    "a length of a thousand digits": (sized(REPORT, int("9" * 1000)), NO_BODY + (413,)),
    "a coding that nobody knows": (post([b"transfer-encoding: xchunked"], WHOLE), NO_BODY + (501,)),
    "a coding behind the chunks": (post([b"transfer-encoding: chunked, gzip"], WHOLE), NO_BODY + (501,)),
    "a coding before the chunks": (post([b"transfer-encoding: gzip, chunked"], chunks(ZIPPED, 20)), NO_BODY + (501, NEW, BAD_JSON)),
    "chunks in chunks": (post([b"transfer-encoding: chunked, chunked"], WHOLE), NO_BODY + (501,)),
    "a blank before the colon of the coding": (post([b"transfer-encoding : chunked"], WHOLE), NO_BODY),
    "chunks in version 1.0": (chunked(WHOLE, first=b"POST /fleet/events HTTP/1.0"), NO_BODY + (NEW,)),
    "a body that is cut off": (sized(REPORT[:40], len(REPORT)), NO_BODY),
    "chunks that are cut off": (chunked(WHOLE[:40]), NO_BODY),
    "chunks without the last one": (chunked(chunks(REPORT, 20, last=b"")), NO_BODY),
    "a head that is cut off": (sized(REPORT)[:60], (400, 408, CLOSE)),
    "a body at its limit": (sized(SPACES), (BAD_JSON,)),
    "a body one over its limit": (sized(SPACES + b" "), (TOO_LARGE,)),
    "chunks at the limit": (chunked(chunks(SPACES, 1000)), (BAD_JSON,)),
    "chunks one over the limit": (chunked(chunks(SPACES + b" ", 1000)), (TOO_LARGE,)),
    "nobody's body one over its limit": (sized(SPACES + b" ", token=None), (TOO_LARGE,)),
    "a body one over its limit on no route": (sized(SPACES + b" ", first=b"GET /nowhere HTTP/1.1"), (TOO_LARGE,)),
    "a body of 16 megabytes": (sized(SPACES * 16), (TOO_LARGE, CLOSE)),
    "16 megabytes in chunks": (chunked(chunks(SPACES * 16, 65_536)), (TOO_LARGE, CLOSE)),
}
