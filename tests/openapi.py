#!/usr/bin/env python3
"""Checks docs/openapi.yaml against the protocol and against answers that are known from outside the program.

    openapi.py [PROTOCOL ..]

Every reference resolves, and every component is referred to. The routes, who may ask, and the statuses and codes are those of the
protocol (docs/PROTOCOL.md and docs/HTTP.md, or the files that are named). Every example fits its schema, and examples of replies and of
bodies stand in the scripts of tests/replays, but for those of paths beside the routes, which no script asks. There each reply fits the
schema of its route and status, and so does each body that was taken.
Prints what was checked in numbers, and each fault, and last 'N passed, M failed', of kinds of checks and of faults; ends with 1 where there
is one. Any python3 of the PATH that has the modules yaml and jsonschema is taken (packages.py); without one it is left out.
"""

import json
import os
import re
import sys

import packages

packages.need_modules("the check of docs/openapi.yaml", "yaml", "jsonschema")

HERE = os.path.dirname(os.path.abspath(__file__))
# tests/http.py isn't the library's http, which jsonschema asks for.
sys.path = [it for it in sys.path if os.path.abspath(it) != HERE]

import jsonschema
import yaml

DESCRIPTION = f"{HERE}/../docs/openapi.yaml"
PROTOCOL = [f"{HERE}/../docs/{name}.md" for name in ("PROTOCOL", "HTTP")]
SCRIPTS = f"{HERE}/replays"

LAST_MOMENT = 4102444799999
METHODS = ("get", "put", "post", "delete")
EVERYWHERE = {"400", "401", "413", "503"}
# Where ruffletuff answers what is no route of the protocol.
BESIDE = "/app/"
TABLES = ("| Method and path | Who |", "| Method and path beside the routes | Who |")


class Description:
    """The description, with what is looked up in it."""

    def __init__(self, path):
        with open(path, encoding="utf-8") as text:
            self.root = yaml.safe_load(text)
        self.validators = {}

    def at(self, reference):
        """What a reference names, or None."""
        node = self.root
        for step in reference.removeprefix("#/").split("/"):
            step = step.replace("~1", "/").replace("~0", "~")
            if not isinstance(node, dict) or step not in node:
                return None
            node = node[step]
        return node

    def plain(self, node):
        """The node itself where it is a reference."""
        return self.at(node["$ref"]) if "$ref" in node else node

    def operations(self):
        """Each path and method with its operation."""
        for path, item in self.root["paths"].items():
            for method in METHODS:
                if method in item:
                    yield path, method.upper(), item[method]

    def responses(self):
        """Each set of responses with its name."""
        for path, method, operation in self.operations():
            yield f"{method} {path}", operation["responses"]
        for rest in ("x-other-paths", "x-other-methods"):
            yield rest, self.root[rest]["responses"]

    def media(self, node):
        """What a response or a body holds, which is of one type."""
        [media] = self.plain(node)["content"].values()
        return media

    def faults(self, schema, value):
        """Why a value doesn't fit a schema, in short."""
        key = json.dumps(schema, sort_keys=True)
        if key not in self.validators:
            whole = {**schema, "components": self.root["components"]}
            self.validators[key] = jsonschema.Draft202012Validator(whole)
        for error in self.validators[key].iter_errors(value):
            yield f"{'/'.join(map(str, error.absolute_path))}: {error.message[:200]}"

    def route(self, method, path):
        """The operation of a request and its name, or what is answered beside them."""
        for template, item in self.root["paths"].items():
            if re.fullmatch(re.sub(r"\\{\w+\\}", "[^/]+", re.escape(template)), path):
                if method.isupper() and method.lower() in METHODS and method.lower() in item:
                    return f"{method} {template}", item[method.lower()]
                return "x-other-methods", self.root["x-other-methods"]
        return "x-other-paths", self.root["x-other-paths"]

    def codes(self, response):
        """The codes that a refusal may have."""
        for part in self.media(response)["schema"].get("allOf", []):
            yield from part.get("properties", {}).get("error", {}).get("enum", [])


def walk(node):
    """Every object and list in a document."""
    yield node
    if isinstance(node, (dict, list)):
        for child in node.values() if isinstance(node, dict) else node:
            yield from walk(child)


def references(description):
    """Every reference resolves, and every component is referred to."""
    found = {node["$ref"] for node in walk(description.root) if isinstance(node, dict) and "$ref" in node}
    for reference in sorted(found):
        if not reference.startswith("#/") or description.at(reference) is None:
            yield f"the reference {reference} resolves to nothing"
    parts = {f"#/components/{kind}/{name}" for kind, all_ in description.root["components"].items() for name in all_}
    for part in sorted(parts - found):
        if not part.startswith("#/components/securitySchemes/"):
            yield f"{part} is referred to by nothing"
    return f"{len(found)} references and {len(parts)} components"


def schemas(description):
    """Every schema is one."""
    count = 0
    named = list(description.root["components"]["schemas"].items())
    inline = [(name, description.media(it)["schema"]) for name, all_ in description.responses() for it in all_.values()]
    for name, schema in named + inline:
        count += 1
        try:
            jsonschema.Draft202012Validator.check_schema(schema)
        except jsonschema.SchemaError as fault:
            yield f"the schema of {name}: {fault.message}"
    return f"{count} schemas"


def operations(description):
    """Each operation has a name of its own, its parameters, its requirement, and what is answered everywhere."""
    names = []
    for path, method, operation in description.operations():
        names.append(operation["operationId"])
        item = description.root["paths"][path]
        given = [description.plain(it) for it in item.get("parameters", []) + operation.get("parameters", [])]
        if {it["name"] for it in given if it["in"] == "path"} != set(re.findall(r"{(\w+)}", path)):
            yield f"{method} {path}: its parameters are {sorted(it['name'] for it in given)}"
        if any(it["required"] for it in given if it["in"] != "path"):
            yield f"{method} {path}: a parameter of its query is needed"
        if [list(it) for it in operation["security"]] != [["bearer"]]:
            yield f"{method} {path}: asks for no access token"
        if ("requestBody" in operation) != (method in ("PUT", "POST")):
            yield f"{method} {path}: has a body where it reads none, or none where it reads one"
    for name, responses in description.responses():
        if EVERYWHERE - set(responses):
            yield f"{name}: lacks {sorted(EVERYWHERE - set(responses))}"
    for name in {it for it in names if names.count(it) > 1}:
        yield f"two operations are named {name}"
    return f"{len(names)} operations"


def protocol_routes(text):
    """Method, path and who may ask, from the table of routes, and from that of what stands beside them."""
    routes, paths = {}, []
    for head in TABLES:
        table = text.partition(head)[2].partition("\n\n")[0]
        for row in table.split("\n")[2:]:
            first, who = row.split("|")[1:3]
            paths = re.findall(r"`(/[^`]*)`", first) or paths
            for method in re.findall(r"\b[A-Z]{3,}\b", first):
                for path in paths:
                    routes[method, path] = sorted(it.strip() for it in who.split(","))
    return routes


def routes(description, text):
    """The routes, and who may ask, are those of the protocol."""
    wanted = protocol_routes(text)
    given = {(method, path): sorted(it["security"][0]["bearer"]) for path, method, it in description.operations()}
    for route in sorted(wanted.keys() | given.keys()):
        if wanted.get(route) != given.get(route):
            yield f"{' '.join(route)}: {wanted.get(route)} may ask in the protocol, {given.get(route)} here"
    if not wanted:
        yield "the protocol has no table of routes"
    return f"{len(wanted)} routes of the protocol"


def protocol_codes(text):
    """Each status with each of its codes, as 'STATUS `code`, `code`'."""
    for status, codes in re.findall(r"(?<![`\d])([45]\d\d) ((?:`[a-z_]+`(?:, )?)+)", text):
        for code in re.findall(r"[a-z_]+", codes):
            yield status, code


def statuses(description, text):
    """The statuses and codes are those of the protocol."""
    wanted = set(protocol_codes(text))
    given = {
        (status, code)
        for _, responses in description.responses()
        for status, response in responses.items()
        for code in description.codes(response)
    }
    for pair in sorted(wanted - given):
        yield f"{' '.join(pair)} stands in the protocol alone"
    for pair in sorted(given - wanted):
        yield f"{' '.join(pair)} doesn't stand in the protocol"
    return f"{len(wanted)} statuses and codes of the protocol"


def is_moment(text):
    """A moment at the front of a line: 1 to 13 digits, up to the end of 2099."""
    return re.fullmatch(rb"[0-9]{1,13}", text) is not None and int(text) <= LAST_MOMENT


def exchanges(path):
    """Each request of a script, as method, path and body, or None for a line that is none; with its status and reply."""
    with open(f"{path}.in", "rb") as given, open(f"{path}.out", "rb") as answers:
        *lines, last = given.read().split(b"\n")[1:]
        lines = [*(it.removesuffix(b"\r") for it in lines), last]
        replies = answers.read().split(b"\n")[:-1]
    lines = [it for it in lines if it]
    if len(lines) != len(replies):
        raise ValueError(f"{path}: {len(lines)} lines and {len(replies)} replies")
    for line, reply in zip(lines, replies):
        fields = line.split(b" ", 4)
        request = None
        if len(fields) >= 4 and all(fields[:4]) and is_moment(fields[0]):
            request = fields[2].decode(), fields[3].partition(b"?")[0].decode(), b"".join(fields[4:])
        status, _, body = reply.partition(b" ")
        yield request, status.decode(), body


def scripts():
    """The scripts that are answered."""
    for name in sorted({it.rsplit(".", 1)[0] for it in os.listdir(SCRIPTS)}):
        with open(f"{SCRIPTS}/{name}.status") as status:
            if int(status.read()) == 0:
                yield name


class Seen:
    """What the scripts of tests/replays have, and its faults."""

    def __init__(self, description):
        self.replies, self.bodies, self.faults = {}, {}, []
        self.scripts = self.checked = self.taken = self.lines = 0
        for name in scripts():
            self.scripts += 1
            for request, status, body in exchanges(f"{SCRIPTS}/{name}"):
                self.look(description, name, request, status, body)

    def look(self, description, name, request, status, body):
        reply = json.loads(body)
        if request is None:
            self.lines += 1
            if (status, reply) != ("400", {"error": "bad_line"}):
                self.faults.append(f"{name}: a line that is no request is answered {status} {body[:100]!r}")
            return
        route, operation = description.route(*request[:2])
        self.replies.setdefault((route, status), []).append(reply)
        self.checked += 1
        if status not in operation["responses"]:
            self.faults.append(f"{name}: {route} has no {status}, but answers {body[:100]!r}")
            return
        schema = description.media(operation["responses"][status])["schema"]
        self.faults += [f"{name}: a reply {status} of {route}: {it}" for it in description.faults(schema, reply)]
        if status == "200" and "requestBody" in operation:
            self.bodies.setdefault(route, []).append(json.loads(request[2]))
            self.taken += 1
            schema = description.media(operation["requestBody"])["schema"]
            # a number that isn't plain is read as a text
            document = json.loads(request[2], parse_float=str)
            self.faults += [f"{name}: a body of {route}: {it}" for it in description.faults(schema, document)]


def replies(seen):
    """Each reply of the scripts fits the schema of its route and status, and each body that was taken its own."""
    yield from seen.faults
    if not seen.scripts:
        yield "tests/replays: no script"
    return f"{seen.checked} replies and {seen.taken} bodies of {seen.scripts} scripts ({seen.lines} lines were no request)"


def examples(description, seen):
    """Every example fits its schema; those of replies and bodies stand in the scripts, a refusal's under any route."""
    count, checked = 0, set()
    refused = {reply["error"] for (_, status), all_ in seen.replies.items() if status != "200" for reply in all_}
    for route, responses in description.responses():
        for status, response in responses.items():
            media = description.media(response)
            if not media.get("examples"):
                yield f"{route}: {status} has no example"
            shared = id(media) in checked
            checked.add(id(media))
            for name, example in media.get("examples", {}).items():
                count += not shared
                for fault in description.faults(media["schema"], example["value"]):
                    yield f"{route}: the example {name} of {status}: {fault}"
                real = [it for (_, given), all_ in seen.replies.items() if given == status for it in all_]
                own = seen.replies.get((route, status), []) if "$ref" not in response else real
                never = status != "200" and example["value"].get("error") not in refused
                if not never and f" {BESIDE}" not in route and example["value"] not in own:
                    yield f"{route}: the example {name} of {status} is no reply of a script"
    for path, method, operation in description.operations():
        media = description.media(operation["requestBody"]) if "requestBody" in operation else {}
        for name, example in media.get("examples", {}).items():
            count += 1
            for fault in description.faults(media["schema"], example["value"]):
                yield f"{method} {path}: the example {name}: {fault}"
            if not path.startswith(BESIDE) and example["value"] not in seen.bodies.get(f"{method} {path}", []):
                yield f"{method} {path}: the example {name} is no body of a script that was taken"
    return f"{count} examples"


def main(protocol):
    text = ""
    for path in protocol:
        with open(path, encoding="utf-8") as part:
            text += part.read()
    description = Description(DESCRIPTION)
    checks = [references(description)]
    faults = [tell(checks[0])]
    # What doesn't resolve can't be looked at further.
    if not faults[0]:
        seen = Seen(description)
        checks += [schemas(description), operations(description), routes(description, text), statuses(description, text)]
        checks += [replies(seen), examples(description, seen)]
        faults += [tell(it) for it in checks[1:]]
    print(packages.count(faults.count(0), sum(faults)))
    return 1 if any(faults) else 0


def tell(check):
    """Prints the faults of a check and what it checked; the number of faults."""
    faults = 0
    while True:
        try:
            print(f"fault: {next(check)}")
            faults += 1
        except StopIteration as end:
            print(f"checked {end.value}")
            return faults


if __name__ == "__main__":
    sys.exit(main(sys.argv[1:] or PROTOCOL))
