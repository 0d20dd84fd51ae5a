"""What is answered to each method at each path, by who asks: worked out by hand from docs/PROTOCOL.md and docs/HTTP.md, and never from a
program's answers.

A table has blocks. A block's first line has targets, which all are answered alike, and behind a bar the methods that they have, which the
field `allow` of a 405 lists (RFC 9110, section 15.5.6). Each further line has methods, and what the author, an operator and an anonymous client are
told: 200, or the code of a refusal. Anonymous is who has a wrong access token, and who has none. What has an exclamation mark may change
something: where the disk has no room it is refused with `no_room`. All else is told as it stands here, whatever the disk.

A table of single requests has for each the method, the target, who asks, the name of its body, and what is told. They have two faults at
once, of which the earlier one of the protocol's order is told, or one that comes behind `no_room`.

The city has a published policy `{policy}` for everyone, with a rule in the published geography `{place}`, and one of another operator,
`{others}`; the operators `{operator}`, who asks, and `{other}`, whose vehicles the author may see; the drafts `{draft}` of a policy and
`{drawn}` of a geography; and the operator's vehicle `{device}`. There is no `{unknown}`.
"""

import collections

METHODS = ("GET", "HEAD", "POST", "PUT", "DELETE", "OPTIONS", "PATCH")
WHO = ("author", "operator", "anonymous")

# Targets, the methods that they have, and what each who asks is told, by the method.
Block = collections.namedtuple("Block", "targets allow cells")
# One request, and what is told.
Single = collections.namedtuple("Single", "method target who body cell")

# The status of each code.
STATUS = {
    "bad_body": 400, "too_large": 413, "token": 401, "no_route": 404, "method": 405, "role": 403, "bad_id": 400, "no_room": 503,
    "bad_json": 400, "id_mismatch": 400, "empty": 400, "no_draft": 404, "not_found": 404, "bad_param": 400, "bad_number": 400,
    "future": 409,
}

# What both programs answer: the table of the protocol.
PROTOCOL = """
/policies /policies?x=1 http://x/policies http://x:80/policies?x=1 | GET
    GET                                         200         200         token
    HEAD POST PUT DELETE OPTIONS PATCH          method      method      token

/policies/{policy} /policies/{policy}?x=1 http://x/policies/{policy} | GET
    GET                                         200         200         token
    HEAD POST PUT DELETE OPTIONS PATCH          method      method      token

/policies/{others} | GET
    GET                                         200         not_found   token
    HEAD POST PUT DELETE OPTIONS PATCH          method      method      token

/policies/{unknown} /geographies/{unknown} | GET
    GET                                         not_found   not_found   token
    HEAD POST PUT DELETE OPTIONS PATCH          method      method      token

/policies/x /policies/x?x=1 http://x/policies/x /policies/%78 /policies/{policy}0 /geographies/x /geographies/0 | GET
    GET                                         bad_id      bad_id      token
    HEAD POST PUT DELETE OPTIONS PATCH          method      method      token

/geographies /geographies?x=1 http://x/geographies /geographies/{place} /geographies/{place}?x=1 http://x/geographies/{place} | GET
    GET                                         200         200         token
    HEAD POST PUT DELETE OPTIONS PATCH          method      method      token

/fleet/events /fleet/events?x=1 http://x/fleet/events | POST
    POST                                        role        200!        token
    GET HEAD PUT DELETE OPTIONS PATCH           method      method      token

/fleet/vehicles /fleet/vehicles?x=1 http://x/fleet/vehicles | GET
    GET                                         role        200         token
    HEAD POST PUT DELETE OPTIONS PATCH          method      method      token

/fleet/vehicles/{device} /fleet/vehicles/{device}?x=1 http://x/fleet/vehicles/{device} | DELETE
    DELETE                                      role        200!        token
    GET HEAD POST PUT OPTIONS PATCH             method      method      token

/fleet/vehicles/{unknown} | DELETE
    DELETE                                      role        not_found!  token
    GET HEAD POST PUT OPTIONS PATCH             method      method      token

/fleet/vehicles/x /fleet/vehicles/x?x=1 http://x/fleet/vehicles/x | DELETE
    DELETE                                      role        bad_id      token
    GET HEAD POST PUT OPTIONS PATCH             method      method      token

/compliance /compliance?x=1 http://x/compliance /compliance/{policy} /compliance/{policy}?x=1 | GET
    GET                                         role        200         token
    HEAD POST PUT DELETE OPTIONS PATCH          method      method      token

/compliance/{others} /compliance/{unknown} | GET
    GET                                         role        not_found   token
    HEAD POST PUT DELETE OPTIONS PATCH          method      method      token

/compliance/x /compliance/x?x=1 http://x/compliance/x | GET
    GET                                         role        bad_id      token
    HEAD POST PUT DELETE OPTIONS PATCH          method      method      token

/drafts/policies/{draft} /drafts/policies/{draft}?x=1 http://x/drafts/policies/{draft} | PUT, GET, DELETE
    GET                                         200         role        token
    PUT DELETE                                  200!        role        token
    HEAD POST OPTIONS PATCH                     method      method      token

/drafts/geographies/{drawn} /drafts/geographies/{drawn}?x=1 http://x/drafts/geographies/{drawn} | PUT, GET, DELETE
    GET                                         200         role        token
    PUT DELETE                                  200!        role        token
    HEAD POST OPTIONS PATCH                     method      method      token

/drafts/policies/x /drafts/policies/x?x=1 http://x/drafts/policies/x /drafts/geographies/x http://x/drafts/geographies/x?x=1 | PUT, GET, DELETE
    GET PUT DELETE                              bad_id      role        token
    HEAD POST OPTIONS PATCH                     method      method      token

/publish /publish?x=1 http://x/publish | POST
    POST                                        200!        role        token
    GET HEAD PUT DELETE OPTIONS PATCH           method      method      token
"""

# Paths that no route has, of either program, whether everyone is told something or not.
NOWHERE = """
/nothing http://x/nothing //  //policies /policies/ /policies//x /policies//{policy} /policies/{policy}/ /policies/{policy}/x |
    GET HEAD POST PUT DELETE OPTIONS PATCH      no_route    no_route    token

/geographies/ /geographies/{place}/ /fleet /fleet/ /fleet/events/ /fleet/events/x /fleet/vehicles/ /fleet/vehicles//x |
    GET HEAD POST PUT DELETE OPTIONS PATCH      no_route    no_route    token

/fleet/vehicles/{device}/ /compliance/ /compliance//x /compliance/{policy}/ /drafts /drafts/ /drafts/policies /drafts/policies/ |
    GET HEAD POST PUT DELETE OPTIONS PATCH      no_route    no_route    token

/drafts/policies//x /drafts/policies/{draft}/ /drafts/geographies /drafts/geographies/ /drafts/x/{draft} /publish/ /publish/x |
    GET HEAD POST PUT DELETE OPTIONS PATCH      no_route    no_route    token

/app /app/ /app/x /app/whoami/ /app/drafts/x /app/fleet/ /app/fleet/events/ /app//whoami /App/whoami |
    GET HEAD POST PUT DELETE OPTIONS PATCH      no_route    no_route    token

/app/fleet//x /app/fleet/x/y /app/fleet/vehicles/x /app/compliance/ /app/compliance//x /app/compliance/x/ /app/compliances |
    GET HEAD POST PUT DELETE OPTIONS PATCH      no_route    no_route    token

/mds/2.0 /mds/2.0/ /mds/2.0/x /mds/2.1/policies /mds/policies /index.html /page.css/ /page.CSS /page /web/page.css |
    GET HEAD POST PUT DELETE OPTIONS PATCH      no_route    no_route    token

/Policies /%70olicies /healthz /metrics /stop |
    GET HEAD POST PUT DELETE OPTIONS PATCH      no_route    no_route    token
"""

# What ruffletuff alone answers, beside the routes. With an `at` in its query a question about fleets is one about that moment: the city
# has its journal from the beginning, so that it tells of each one that is over. 4102444799999 is the end of 2099.
APP = """
/app/whoami /app/whoami?x=1 http://x/app/whoami /app/withdrawals /app/withdrawals?at=x http://x/app/withdrawals | GET
    GET                                         200         200         token
    HEAD POST PUT DELETE OPTIONS PATCH          method      method      token

/app/drafts /app/drafts?x=1 /app/drafts?at=x http://x/app/drafts | GET
    GET                                         200         role        token
    HEAD POST PUT DELETE OPTIONS PATCH          method      method      token

/app/fleet/events /app/fleet/events?x=1 /app/fleet/events?at=x http://x/app/fleet/events | POST
    POST                                        role        200!        token
    GET HEAD PUT DELETE OPTIONS PATCH           method      method      token

/app/compliance /app/compliance?x=1 http://x/app/compliance /app/compliance?at=0 http://x/app/compliance?x=1&at=0 | GET
    GET                                         200         200         token
    HEAD POST PUT DELETE OPTIONS PATCH          method      method      token

/app/compliance?at=x /app/compliance?at /app/compliance?at=1&at=1 http://x/app/compliance?at= | GET
    GET                                         bad_number  bad_number  token
    HEAD POST PUT DELETE OPTIONS PATCH          method      method      token

/app/compliance?at=4102444799999 http://x/app/compliance?at=4102444799999 | GET
    GET                                         future      future      token
    HEAD POST PUT DELETE OPTIONS PATCH          method      method      token

/app/fleet /app/fleet?x=1 http://x/app/fleet /app/fleet?at=0 http://x/app/fleet?at=0 | GET
    GET                                         role        200         token
    HEAD POST PUT DELETE OPTIONS PATCH          method      method      token

/app/fleet?at=x http://x/app/fleet?at=x | GET
    GET                                         role        bad_number  token
    HEAD POST PUT DELETE OPTIONS PATCH          method      method      token

/app/fleet?at=4102444799999 | GET
    GET                                         role        future      token
    HEAD POST PUT DELETE OPTIONS PATCH          method      method      token

/app/compliance/{operator} /app/compliance/{other} /app/fleet/{operator} /app/fleet/{other} /app/fleet/{operator}?x=1 | GET
    GET                                         200         role        token
    HEAD POST PUT DELETE OPTIONS PATCH          method      method      token

http://x/app/compliance/{operator} http://x/app/fleet/{other} /app/compliance/{operator}?at=0 /app/fleet/{other}?at=0 | GET
    GET                                         200         role        token
    HEAD POST PUT DELETE OPTIONS PATCH          method      method      token

/app/compliance/{other}?at=x /app/fleet/{operator}?at=x http://x/app/compliance/{operator}?at=x | GET
    GET                                         bad_number  role        token
    HEAD POST PUT DELETE OPTIONS PATCH          method      method      token

/app/compliance/{other}?at=4102444799999 /app/fleet/{operator}?at=4102444799999 | GET
    GET                                         future      role        token
    HEAD POST PUT DELETE OPTIONS PATCH          method      method      token

/app/compliance/{unknown} /app/fleet/{unknown} /app/compliance/{unknown}?at=0 /app/fleet/{unknown}?at=x http://x/app/fleet/{unknown} | GET
    GET                                         not_found   role        token
    HEAD POST PUT DELETE OPTIONS PATCH          method      method      token

/app/compliance/x /app/compliance/{operator}0 /app/fleet/x /app/fleet/vehicles /app/compliance/x?at=0 http://x/app/fleet/x?at=x | GET
    GET                                         bad_id      role        token
    HEAD POST PUT DELETE OPTIONS PATCH          method      method      token
"""

# The files of the page, which ruffletuff alone has. The access token isn't looked at.
PAGE = """
/ /?x=1 http://x http://x/ http://x?x=1 /page.css /page.css?x=1 http://x/page.css /settings.json | GET, HEAD
    GET HEAD                                    200         200         200
    POST PUT DELETE OPTIONS PATCH               method      method      method

/author.js /cards.js /dom.js /fleet.js /geometry.js /layers.js /map.js /page.js /rules.js /server.js /state.js /zone.js | GET, HEAD
    GET HEAD                                    200         200         200
    POST PUT DELETE OPTIONS PATCH               method      method      method
"""

# What everyone is told, where the configuration has it so. The access token isn't looked at.
PUBLIC = """
/mds/2.0/policies /mds/2.0/policies?start_date=0 http://x/mds/2.0/policies /mds/2.0/policies/{policy} | GET, HEAD
    GET HEAD                                    200         200         200
    POST PUT DELETE OPTIONS PATCH               method      method      method

/mds/2.0/geographies /mds/2.0/geographies?x=1 /mds/2.0/geographies/{place} | GET, HEAD
    GET HEAD                                    200         200         200
    POST PUT DELETE OPTIONS PATCH               method      method      method

/mds/2.0/policies/{others} /mds/2.0/policies/{unknown} /mds/2.0/policies/x /mds/2.0/geographies/{unknown} /mds/2.0/geographies/x | GET, HEAD
    GET HEAD                                    not_found   not_found   not_found
    POST PUT DELETE OPTIONS PATCH               method      method      method

/mds/2.0/policies?start_date=x | GET, HEAD
    GET HEAD                                    bad_param   bad_param   bad_param
    POST PUT DELETE OPTIONS PATCH               method      method      method
"""

# The order of refusals, of both programs.
ORDER = """
OPTIONS  *                                author    none     no_route
OPTIONS  *                                operator  none     no_route
OPTIONS  *                                anonymous  none     token
GET      /policies                        author    cut      bad_body
POST     /nothing                         anonymous  cut      bad_body
PUT      /drafts/policies/x               operator  cut      bad_body
POST     /publish                         operator  cut      bad_body
GET      /policies                        author    long     too_large
POST     /nothing                         anonymous  long     too_large
PATCH    /nothing                         author    long     too_large
PUT      /policies                        operator  long     too_large
POST     /publish                         operator  long     too_large
DELETE   /fleet/vehicles/x                operator  long     too_large
PUT      /drafts/policies/x               author    broken   bad_id
PUT      /drafts/geographies/x            author    broken   bad_id
DELETE   /fleet/vehicles/x                operator  broken   bad_id
GET      /drafts/policies/{unknown}       author    broken   no_draft
GET      /drafts/geographies/{unknown}    author    broken   no_draft
POST     /fleet/events                    operator  broken   bad_json!
POST     /publish                         author    broken   bad_json!
PUT      /drafts/policies/{draft}         author    broken   bad_json!
PUT      /drafts/geographies/{drawn}      author    broken   bad_json!
PUT      /drafts/policies/{unknown}       author    another  id_mismatch!
POST     /publish                         author    empty    empty!
DELETE   /drafts/policies/{unknown}       author    none     no_draft!
DELETE   /drafts/geographies/{unknown}    author    none     no_draft!
"""

# The same of what ruffletuff alone answers. A body of which no line may be a report changes nothing.
APP_ORDER = """
POST     /app/fleet/events                author    cut      bad_body
GET      /app/whoami                      anonymous  long     too_large
POST     /app/fleet/events                author    long     too_large
PUT      /app/fleet/events                operator  long     too_large
POST     /app/fleet/events                operator  none     200
POST     /app/fleet/events                operator  junk     200
POST     /app/fleet/events                operator  broken   200!
"""


def blocks(table):
    """The blocks of a table, in each of which every method stands once."""
    found = []
    for text in table.strip().split("\n\n"):
        first, *lines = text.splitlines()
        targets, _, allow = first.partition("|")
        cells = {}
        for line in lines:
            *methods, author, operator, anonymous = line.split()
            cells |= {it: dict(zip(WHO, (author, operator, anonymous))) for it in methods}
        if sorted(cells) != sorted(METHODS) or sum(len(it.split()) - len(WHO) for it in lines) != len(METHODS):
            raise ValueError(f"not each method stands once: {first}")
        found.append(Block(targets.split(), allow.strip(), cells))
    return found


def nowhere(table):
    """The blocks of a table whose paths no route has: what a program answers that hasn't these."""
    nothing = blocks(NOWHERE)[0].cells
    return [Block(it.targets, "", nothing) for it in blocks(table)]


def singles(table):
    """The requests of a table of single ones."""
    return [Single(*line.split()) for line in table.strip().splitlines()]
