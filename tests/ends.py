"""How mds_serve ends, and what it says then: by its arguments, its configuration, its address and its number of connections."""

import contextlib
import socket
import subprocess

from messages import NO_POLICY
from wire import SECONDS, Server, configuration

LINE_LIMIT = 2_097_152
USAGE = "serve: usage\nusage: mds_serve ADDRESS [CONNECTIONS] < CONFIGURATION (mds_serve --help says more)"
BAD = "serve: bad configuration"


def ended(program, arguments, given):
    """Status, standard output and standard error of a run that ends by itself."""
    ran = subprocess.run([program, *arguments], input=given, stdout=subprocess.PIPE, stderr=subprocess.PIPE, timeout=3 * SECONDS)
    return ran.returncode, ran.stdout, ran.stderr


ENDS = {
    "no argument": ((), b"", 2, USAGE),
    "three arguments": (("127.0.0.1:0", "0", "0"), None, 2, USAGE),
    "connections that are no number": (("127.0.0.1:0", "x"), None, 2, USAGE),
    "connections with a sign": (("127.0.0.1:0", "-1"), None, 2, USAGE),
    "connections with a blank": (("127.0.0.1:0", " 1"), None, 2, USAGE),
    "connections of ten digits": (("127.0.0.1:0", "0000000000"), None, 2, USAGE),
    "empty connections": (("127.0.0.1:0", ""), None, 2, USAGE),
    "an address that begins with a sign": (("-x",), None, 2, USAGE),
    "help and a number": (("--help", "0"), None, 2, USAGE),
    "usage before the configuration": (("nowhere", "x"), b"{", 2, USAGE),
    "an empty input": (("127.0.0.1:0", "0"), b"", 2, f"{BAD}\nnot JSON"),
    "an empty first line": (("127.0.0.1:0", "0"), b"\n" + configuration(), 2, f"{BAD}\nnot JSON"),
    "a configuration that is cut off": (("127.0.0.1:0", "0"), configuration()[:60], 2, f"{BAD}\nnot JSON"),
    "a configuration over the limit of a line": (
        ("127.0.0.1:0", "0"),
        configuration().strip().ljust(LINE_LIMIT + 1) + b"\n",
        2,
        f"{BAD}\nlonger than 2097152 bytes",
    ),
    "the configuration before the address": (("nowhere", "0"), b"{", 2, f"{BAD}\nnot JSON"),
    "an address that is none": (("nowhere", "0"), None, 1, "serve: no listener"),
    "an address without a port": (("127.0.0.1", "0"), None, 1, "serve: no listener"),
    "an empty address": (("", "0"), None, 1, "serve: no listener"),
    "an address of another machine": (("192.0.2.1:0", "0"), None, 1, "serve: no listener"),
    "no connection": (("127.0.0.1:0", "0"), None, 0, None),
    "no connection, nine digits": (("127.0.0.1:0", "000000000"), None, 0, None),
    "a configuration without a line feed": (("127.0.0.1:0", "0"), configuration().strip(), 0, None),
    "a configuration with CR LF": (("127.0.0.1:0", "0"), configuration().strip() + b"\r\n", 0, None),
    "a configuration at the limit of a line": (("127.0.0.1:0", "0"), configuration().strip().ljust(LINE_LIMIT) + b"\n", 0, None),
}


def an_end(program, arguments, given, status, said):
    wanted = (status, b"" if said else b"ready\n", f"{said}\n".encode() if said else b"")
    found = ended(program, arguments, configuration() if given is None else given)
    if found != wanted:
        yield f"ends with {found}, not {wanted}"


# Arguments at which the program tells something and ends, before it reads anything, each with what it prints first.
TOLD_AT_ONCE = {
    "help": (("--help",), b"mds_serve ADDRESS [CONNECTIONS]"),
    "the version": (("--version",), b"mds_serve 1.3.0\n"),
}


def is_refused(program, given, status, said):
    """The configuration is refused, with these lines on standard error."""
    yield from an_end(program, ("127.0.0.1:0", "0"), given, status, said)


def is_told_at_once(program, arguments, said):
    """It prints this first and ends well, whether standard input is closed or gives nothing."""
    for closed in (True, False):
        how = {"stdin": subprocess.PIPE, "stdout": subprocess.PIPE, "stderr": subprocess.PIPE}
        with subprocess.Popen([program, *arguments], **how) as process:
            if closed:
                process.stdin.close()
            try:
                status = process.wait(SECONDS)
            except subprocess.TimeoutExpired:
                process.kill()
                yield f"it waits, with standard input {'closed' if closed else 'open'}"
                continue
            out, err = process.stdout.read(), process.stderr.read()
        if status or err or not out.startswith(said):
            yield f"ends with {(status, out[:200], err[:200])}, with standard input {'closed' if closed else 'open'}"


def an_address_that_is_taken(program):
    with socket.socket() as other:
        other.bind(("127.0.0.1", 0))
        other.listen()
        address = f"127.0.0.1:{other.getsockname()[1]}"
        yield from an_end(program, (address, "0"), None, 1, "serve: no listener")


def so_many_connections(program):
    """It serves as many connections as it was told, and ends well."""
    with Server(program, arguments=["3"]) as server:
        for _ in range(2):
            if not server.ask("GET", "/policies").is_by_the_server(*NO_POLICY):
                yield "a connection isn't served"
        if server.process.poll() is not None:
            yield "it ends before its last connection"
        server.ask("GET", "/policies")
        with contextlib.suppress(subprocess.TimeoutExpired):
            server.process.wait(SECONDS)
        if (found := server.stop()) != (0, b"", b""):
            yield f"ends with {found}"
