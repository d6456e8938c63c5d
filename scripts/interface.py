#!/usr/bin/env python3
"""Whether docs/openapi.yaml, the pages beside it and the definitions say the same. Looks at the document itself, at its routes,
codes and members, at every reply that op_reply works out, at the requests and messages that the tests have, at every marked
example of the pages and the catalogue of error codes, and runs the code of the pages on worked values. Not part of the gate.
It needs Python's packages yaml, openapi-spec-validator and jsonschema, and runs the JavaScript where node is there.
Use: scripts/interface.py"""
import base64
import calendar
import hashlib
import hmac
import json
import os
import re
import shutil
import subprocess
import sys
import tempfile
from datetime import datetime, timedelta

sys.dont_write_bytecode = True
from interface_document import FAULTS, Interface, Message, check_printed, must, read

PAGES = ["API.md", "PURCHASE.md", "SIGNING.md", "WEBHOOKS.md"]
MASTER = bytes(32)


def hmac_of(key, message):
    return hmac.new(key, message, hashlib.sha256).digest()


# ---- what the definitions say


def check_routes(interface):
    """The routes of the document are those of the table, under the same names."""
    table = re.findall(r'on (\w+) \(codes "([^"]+)"\) (\w+)', read("crates", "op_model", "specs", "RouteTable.antt"))
    due = {(method.upper(), path): name[0].lower() + name[1:] for method, path, name in table}
    due["GET", "/{path}"] = "readAddress"
    must(len(due) == 28, f"the table has {len(due)} routes")
    must(due == interface.routes, f"other routes: {set(due.items()) ^ set(interface.routes.items())}")


def check_answered(interface):
    """What is said to be answered today is what the definitions say."""
    names = re.findall(r"^is_built \((\w+)", read("crates", "op_session", "specs", "Built.antt"), re.M)
    due = {lower_first(name) for name in names}
    rows = rows_of(read("docs", "API.md"), "| Method and path | Asks for | Does | Answered today |")
    said = {interface.routes[tuple(row[0].replace("`", "").replace("an address path", "/{path}").split(" "))] for row in rows if row[-1] == "yes"}
    must(len(rows) == 28 and said == due, f"docs/API.md: {len(rows)} routes, of which {said} are answered, and not {due}")
    told = {name for name, one in interface.operations.items() if "The program answers this route." in one.get("description", "")}
    must(told == due, f"docs/openapi.yaml: {told} are answered, and not {due}")
    for name, one in interface.operations.items():
        must(name in due or "404" in one["responses"], f"docs/openapi.yaml: {name} is not answered yet, and has no 404")


class Refusals:
    """The refusals as they are printed: of each code its status and its members."""

    def __init__(self, texts):
        self.status, self.members = {}, {}
        for text in texts:
            reply = Message(text)
            error = json.loads(reply.body)["error"]
            code = error.pop("code")
            self.status[code] = reply.first.split(" ")[1]
            self.members.setdefault(code, []).append(set(error))

    def members_of(self, code):
        """The members of a code as the catalogue writes them: one that may be absent has a question mark."""
        shown = self.members[code]
        return {name if all(name in one for one in shown) else name + "?" for one in shown for name in one}


def worked_texts(name):
    """The replies that a file of proofs works out: what is printed, and the text."""
    found = re.findall(r'^\w+ : (.+) ≡ codes ("HTTP/1\.1 .*")$', read("crates", "op_reply", "proofs", name), re.M)
    return [(said, json.loads(text)) for said, text in found]


def lower_first(name):
    return name[0].lower() + name[1:]


def purchase_tasks():
    """The tasks of the worked purchase: of each the name of its operation, or None for a step."""
    text = read("crates", "op_reply", "proofs", "WorkedPurchase.antt")
    lines = re.search(r"^purchase =\n(.*?)^    ∷ \[\]$", text, re.M | re.S).group(1).splitlines()
    names = []
    for line in lines:
        made = re.search(r"requests\.(\w+)", line)
        names.append("readOutgoing" if "read_payment" in line else made and lower_first(made.group(1)))
    return names


# which operations have a form of reply; the others stand in the purchase
FORMS = {
    "OriginSet": ["setOrigin"], "RateSet": ["setRate"], "Transferred": ["deposit", "withdraw"],
    "GrantDecided": ["acceptGrant", "rejectGrant"], "OutgoingInspected": ["inspectOutgoing", "cancelOutgoing"],
    "GrantPolled": ["continueGrant"], "TokenRotated": ["rotateToken"], "NoContent": ["cancelGrant", "revokeToken"],
    "IncomingRead": ["readIncoming", "completeIncoming"], "QuoteRead": ["readQuote"], "IncomingsListed": ["listIncomings"],
    "OutgoingsListed": ["listOutgoings"], "FeedRead": ["readFeed"],
}


def check_worked_replies(interface):
    """Every reply that the proofs work out is one of the document's. Returns the refusals and the texts of the purchase."""
    tasks, turns, refused = purchase_tasks(), [], []
    for said, text in worked_texts("WorkedReplies.antt"):
        task = re.fullmatch(r"reply_to (\d+)", said)
        name = tasks[int(task.group(1))] if task else lower_first(re.search(r"requests\.(\w+)", said).group(1))
        interface.check_reply(name, text, f"worked reply {said}")
        if task:
            turns.append((name, text))
    for said, text in worked_texts("WorkedForms.antt"):
        form = re.search(r"bodies\.(\w+)", said)
        for name in FORMS[form.group(1)] if form else []:
            interface.check_reply(name, text, f"worked form {said}")
        if not form:
            refused.append(text)
    must(len(turns) == 16, f"the purchase has {len(turns)} requests, and not 16")
    must(len(refused) == 41, f"{len(refused)} refusals are worked out, and not 41")
    return refused, turns


def check_refusals(interface, texts):
    """Every refusal that is printed stands in the document, under its status and no other."""
    refusals = Refusals(texts)
    codes = interface.components["schemas"]["ErrorCode"]["enum"]
    must(sorted(codes) == sorted(refusals.status), f"other codes: {set(codes) ^ set(refusals.status)}")
    places = [(f"{name} {status}", status, node) for name, one in interface.operations.items() for status, node in one["responses"].items()]
    places.append(("MethodNotAllowed", "405", interface.components["responses"]["MethodNotAllowed"]))
    for name, status, node in places:
        for code in interface.codes_of(node):
            must(refusals.status.get(code) == status, f"{name}: {code} is not {status}")
    for text in texts:
        reply = Message(text)
        code = json.loads(reply.body)["error"]["code"]
        there = [(name, node) for name, _, node in places if code in interface.codes_of(node)]
        must(there, f"no operation is refused with {code}")
        for name, node in there:
            if code != "access_denied" or allows_rule(interface, node, reply.body):
                interface.check_response(name, node, reply, f"worked refusal {code}")
    return refusals


def allows_rule(interface, node, body):
    """Whether the response has the rule of this denial at all."""
    schema = interface.follow(node)["content"]["application/json"]["schema"]
    rules = schema["properties"]["error"]["properties"].get("rule", {}).get("enum")
    return rules is None or json.loads(body)["error"]["rule"] in rules


# ---- the members of bodies

# which definitions make a reply's body, and the schemas that say the same; a member is due where each of them asks for it
REPLIES = [
    (["origin_data"], ["OriginSet"]), (["asset_added_data"], ["AssetAdded"]), (["asset_inspected_data"], ["AssetWithBalances"]),
    (["rate_data"], ["RateSet"]), (["address_added_data"], ["AddressAdded"]), (["address_inspected_data"], ["AddressWithBalance"]),
    (["address_read_data"], ["WalletAddress"]), (["transferred_data"], ["Transferred"]), (["amount_data"], ["ShownAmount"]),
    (["amount_data"], ["ReceivedAmount"]), (["asset_data"], ["ShownAsset"]), (["outgoing_inspected_data"], ["PaymentProgress"]),
    (["limits_data"], ["ShownLimits"]), (["item_data"], ["ShownAccess"]), (["token_data"], ["ShownToken"]),
    (["continue_data"], ["ContinuationAtOnce", "ContinuationToWaitFor"]), (["issued_data"], ["GrantIssued"]),
    (["pending_data", "interact_data"], ["GrantPending"]), (["polled_data"], ["GrantPolled"]), (["rotated_data"], ["TokenRotated"]),
    (["grant_decided_data"], ["GrantDecided"]), (["incoming_data"], ["IncomingPayment"]), (["quote_data"], ["Quote"]),
    (["outgoing_with"], ["OutgoingPaymentMade"]), (["list_data", "page_data"], ["IncomingPayments"]),
    (["list_data", "page_data"], ["OutgoingPayments"]), (["feed_read_data", "event_data"], ["Feed"]),
]
# which definition reads the body of an operation's request
REQUESTS = {
    "setOrigin": "set_origin_members", "addAsset": "add_asset_members", "addAddress": "add_address_members",
    "deposit": "transfer_members", "withdraw": "transfer_members", "setRate": "set_rate_members",
    "makeIncoming": "make_incoming_members", "makeQuote": "make_quote_members", "makeOutgoing": "make_outgoing_members",
    "askGrant": "ask_grant_members", "continueGrant": "continue_grant_members",
}


def definition(name, *file):
    """The text of a definition, up to the empty line behind it."""
    return re.search(rf"^(?:abbrev|unfoldable) pub {name} : (.*?)(?:\n\n|\Z)", read("crates", "op_model", "specs", *file), re.M | re.S).group(1)


def members_made(names):
    """The members of a body as the definitions make it: of each whether it is always there."""
    found = [re.findall(r'(member|optional) \(codes "(\w+)"\)', definition(name, "Bodies.antt")) for name in names]
    return {name: kind == "member" for one in found for kind, name in one}


def members_read(name):
    """The members that a request's body is read for, in their order: of each whether it has to be there."""
    file = "GrantMembers.antt" if "grant" in name else "Members.antt"
    members = {}
    for member, form in re.findall(r'or_bad \(codes "(\w+)"\) (.*)', definition(name, file)):
        members.setdefault(member, not re.search(r"optional_|pieces_in|interact_in", form))
    return members


def own_members(interface, schema):
    """The members of a schema and of the objects that are written out in it: of each whether it has to be there."""
    members = own_members(interface, interface.follow(schema)) if "$ref" in schema else {}
    members.update({name: False for name in schema.get("properties", {}) if name not in members})
    members.update({name: True for name in schema.get("required", [])})
    for part in list(schema.get("properties", {}).values()) + [schema.get("items", {})]:
        inner = part.get("items", {}) if part.get("type") == "array" else part
        if "properties" in inner:
            members.update(own_members(interface, inner))
    return members


def check_members(interface):
    """The schemas have the members of the definitions, and these have to be there where they do there."""
    schemas = interface.components["schemas"]
    for names, shown in REPLIES:
        kinds = [own_members(interface, schemas[name]) for name in shown]
        said = {name: all(kind.get(name) for kind in kinds) for kind in kinds for name in kind}
        must(said == members_made(names), f"{shown}: other members than {names}: {set(said.items()) ^ set(members_made(names).items())}")
    for name, reader in REQUESTS.items():
        body = interface.operations[name]["requestBody"]["content"]["application/json"]["schema"]
        schema = interface.follow(body)
        said = own_members(interface, {**schema, "properties": {member: {} for member in schema.get("properties", {})}})
        must(said == members_read(reader), f"{name}: other members than {reader}: {set(said.items()) ^ set(members_read(reader).items())}")


def sections_of(page):
    """The sections of a page that stand for operations: the routes of a heading, and the text behind it."""
    parts = re.split(r"^(###? .*)$", read("docs", page), flags=re.M)[1:]
    for heading, text in zip(parts[::2], parts[1::2]):
        routes = re.findall(r"(GET|POST|DELETE) `(/[^`]+)`", heading)
        if heading.startswith("### ") and routes:
            yield routes, text


def names_in(text):
    """The names of members in a sentence or a cell, without what stands in brackets: of each whether it is always there."""
    return {name: not mark for name, mark in re.findall(r"`(\w+)`(\?)?", re.sub(r"\([^()]*\)", "", text))}


def check_sections(interface):
    """The sections on routes name the members of requests in the order in which they are read, and those of replies."""
    seen = set()
    for routes, text in sections_of("API.md"):
        names = [interface.routes[route] for route in routes]
        seen.update(names)
        for name in names:
            if name in REQUESTS:
                cells = rows_of(text, "\n| Member | Form |") if "| Member | Form |" in text else []
                said = names_in(", ".join(row[0] for row in cells))
                due = members_read(REQUESTS[name])
                must(list(said.items()) == list(due.items()), f"docs/API.md: {name} reads {due}, and not {said}")
            told = re.search(r"Reply `(\d+)` with (.*?)(?:[.:](?:\s|$))", re.sub(r"\([^()]*\)", "", text))
            content = told and interface.follow(interface.operations[name]["responses"].get(told.group(1), {})).get("content")
            if content and "$ref" in content["application/json"]["schema"]:
                schema = interface.follow(content["application/json"]["schema"])
                due = own_members(interface, {**schema, "properties": {member: {} for member in schema.get("properties", {})}})
                must(names_in(told.group(2)) == due, f"docs/API.md: {name} is replied {due}, and not {names_in(told.group(2))}")
        check_section_codes(interface, names, text)
    must(seen == set(interface.operations) - {"readAddress"}, f"docs/API.md has no section on {set(interface.operations) - seen}")


# refusals that sections do not name one by one: those of the stream and of malformed requests, of the wallet, of a route that is
# not answered yet; and those that the resources have in common
SHARED = {"bad_http", "length_required", "request_too_large", "bad_json", "bad_field", "invalid_request", "out_of_memory", "disk_fault", "journal_full"}
RESOURCES = {("401", "invalid_client"), ("401", "invalid_token"), ("403", "access_denied")}


def check_section_codes(interface, names, text):
    """A section names the refusals of its operations, each with its status."""
    due = set()
    for name in names:
        for status, node in interface.operations[name]["responses"].items():
            if not node.get("$ref", "").endswith("/NotAnsweredYet"):
                due |= {(status, code) for code in interface.codes_of(node)} - {(status, code) for code in SHARED}
        if "token" in interface.operations[name].get("security", [{}])[0] and name not in ("rotateToken", "revokeToken"):
            due -= RESOURCES
    said = set(re.findall(r"\b(\d{3}) `(\w+)`", text)) - {("400", "invalid_request")}
    must(said == due, f"docs/API.md: the refusals of {names}: {said ^ due}")


# ---- forms of texts, by rows that were worked out by hand

ROWS = [
    ("Value", ["0", "1", "990", "1000000000000000000"], ["", "00", "01", "1a", "-1", "1.0", "1000000000000000001", "2000000000000000000"]),
    ("AssetCode", ["USD", "EUR", "A23", "ABCDEFGH"], ["US", "usd", "1SD", "ABCDEFGHI", ""]),
    ("RateNumber", ["1", "1000000000000"], ["0", "01", "1000000000001"]),
    ("MomentToRead", ["2024-02-29T12:00:00.123456789+01:00", "9999-12-31T23:59:59.999Z", "2024-03-01t12:00:00z"],
     ["2024-03-01 12:00:00Z", "2024-03-01T12:00:60Z", "2024-03-01T12:00:00.Z", "2024-03-01T12:00:00.1234567890Z", "2024-03-01T12:00:00"]),
    ("Interval", ["R3/2024-01-31T00:00:00Z/P1M", "R/2024-03-01T00:00:00Z/PT1S", "R12/2024-03-01T00:00:00Z/P1DT12H", "R/2024-03-01T00:00:00Z/P2W"],
     ["R0/2024-01-31T00:00:00Z/P1M", "P1D", "R/2024-01-31T00:00:00Z/P", "R/2024-01-31T00:00:00Z/P1DT", "R/2024-01-31T00:00:00Z/P1W2D", "R/2024-01-31T00:00:00Z/P1000000D"]),
    ("AddressPath", ["/alice", "/.well-known/pay", "/grants", "/a/b/c/d/e/f/g/h"],
     ["/", "alice", "/grant", "/admin/x", "/a/..", "/.", "/a//b", "/a/", "/a b", "/a/b/c/d/e/f/g/h/i", "/" + 65 * "a"]),
    ("Origin", ["https://wallet.example", "http://localhost:8080"], ["https://wallet.example/", "wallet.example", "https://a@b", "ftp://a"]),
    ("Client", ["https://wallet.example/shop", "https://"], ["shop", "https://a b"]),
    ("TransferId", ["t", 64 * "~"], ["", "a b", 65 * "~"]),
    ("OutgoingPaymentId", ["00000003-0000-8000-8000-00000000001F"], ["00000001-0000-8000-8000-000000000001", "3"]),
]


def check_rows(interface):
    """Worked texts are let through by the schemas, or not; and so are the examples of the document."""
    for name, schema in interface.components["schemas"].items():
        for example in schema.get("examples", []):
            fault = interface.fault_in(schema, example)
            must(fault is None, f"docs/openapi.yaml: the example of {name}: {fault}")
    for name, good, bad in ROWS:
        schema = {"$ref": f"#/components/schemas/{name}"}
        for text in good:
            must(interface.fault_in(schema, text) is None, f"{name} refuses {text!r}")
        for text in bad:
            must(interface.fault_in(schema, text) is not None, f"{name} lets {text!r} through")


# ---- requests that the tests of op_api have worked out: what is accepted, and what is refused for its form


class NotWhole:
    """A number that is not written as a whole one of 64 bits. It has no type that a schema knows."""

    def __init__(self, digits):
        self.digits = digits


def as_written(text):
    """A body as JSON, with its numbers as they are written."""

    def whole(digits):
        return NotWhole(digits) if digits == "-0" or not -(2**63) <= int(digits) < 2**64 else int(digits)

    return json.loads(text, parse_float=NotWhole, parse_int=whole)


def tested_bodies():
    """Targets, bodies, and whether they are refused, by the name or the code that is told."""
    case = r'\(\s*"(/[^"]*)",\s*(?:r#"(.*?)"#|"([^"]*)"),\s*"([^"]*)",?\s*\)'
    tests = re.findall(case, read("crates", "op_api", "src", "request_tests.rt"), re.S)
    clients = re.findall(case, read("crates", "op_api", "src", "client_tests.rt"), re.S)
    must(len(tests) == 81 and len(clients) == 9, f"op_api tests {len(tests)} and {len(clients)} bodies, and not 81 and 9")
    return [(target, raw or plain, name) for target, raw, plain, name in tests] + [(target, raw or plain, "") for target, raw, plain, _ in clients]


def speaks_of(fault, name):
    """Whether a fault is in the member of this name, or in how members stand together."""
    place = list(fault.absolute_path)
    return place[0] == name if place else fault.validator in ("oneOf", "not") or f"'{name}'" in fault.message


def check_bodies(interface):
    """The schemas of requests let through what is accepted, and refuse what is refused for its form."""
    for target, text, name in tested_bodies():
        body = interface.operations[interface.route_of("POST", target)[0]].get("requestBody")
        if body is None or text == "":
            continue
        try:
            value = as_written(text)
        except ValueError:
            must(name in ("bad_json", "invalid_request"), f"{target}: {text} is no JSON, and {name!r} is told")
            continue
        faults = interface.faults_in(body["content"]["application/json"]["schema"], value)
        agrees = any(speaks_of(fault, name) for fault in faults) if name else not faults
        must(agrees, f"{target}: {text} is told {name!r}, and the schema says {[fault.message[:100] for fault in faults]}")


def check_queries(interface):
    """The same of queries."""
    tests = read("crates", "op_api", "src", "request_tests.rt").partition("const QUERIES")[2].partition("];")[0]
    cases = [case for case in re.findall(r'\(\s*"(/[^"]*)",\s*"([^"]*)",?\s*\)', tests) if not case[0].startswith("/admin")]
    must(len(cases) == 17, f"op_api tests {len(cases)} queries, and not 17")
    for target, name in cases:
        fault = interface.fault_in_parameters(*interface.route_of("GET", target), target)
        must((fault is None) == (name == ""), f"{target} is told {name!r}, and the document says {fault}")


def check_tested_messages(interface):
    """The webhook messages that op_hooks tests, under the secret of its tests."""
    texts = re.findall(r'"(POST / HTTP/1\.1(?:[^"\\]|\\.)*)"', read("crates", "op_hooks", "src", "tests.rt"))
    must(len(texts) == 2, f"op_hooks tests {len(texts)} messages, and not 2")
    for text in texts:
        check_message(interface, json.loads(f'"{text}"'), bytes(range(1, 33)), "a message of op_hooks")


# ---- pages


class Block:
    """A fenced block: the words behind its fence, its text without the last line's end, and where it stands."""

    def __init__(self, page, line, words, text):
        self.page, self.words, self.text = page, words, text
        self.place = f"docs/{page}, line {line}"


def blocks_of(page):
    lines, blocks, opened = read("docs", page).splitlines(), [], None
    for number, line in enumerate(lines, 1):
        if not line.startswith("```"):
            continue
        if opened is None:
            opened = number
        else:
            blocks.append(Block(page, opened, lines[opened - 1][3:].split(), "\n".join(lines[opened : number - 1])))
            opened = None
    must(opened is None, f"docs/{page}: a block has no end")
    return blocks


def as_message(text):
    """A message as a page shows it, whose lines end with line feeds alone. A head without a body has its empty line."""
    head, _, body = text.partition("\n\n")
    return head.replace("\n", "\r\n") + "\r\n\r\n" + body


def proof_of(client, method, target, body, authorization):
    """The proof of a request under the zero master secret."""
    lines = [method, target, hashlib.sha256(body.encode()).hexdigest(), authorization]
    return hmac_of(hmac_of(MASTER, client.encode()), "".join(line + "\n" for line in lines).encode()).hex()


def check_signed(interface, name, method, target, request, words):
    """A request has the fields that its operation asks for, and the right proof."""
    security = interface.operations[name].get("security")
    if security is None:
        must("wallet-signature" not in request.fields, f"{words}: {name} asks for no proof")
        return
    fields = ["wallet-client", "wallet-signature"] + ["authorization"] * (len(security[0]) - 2)
    if must(all(field in request.fields for field in fields), f"{words}: not all of {fields}"):
        due = proof_of(request.fields["wallet-client"], method, target, request.body or "", request.fields.get("authorization", ""))
        must(request.fields["wallet-signature"] == due, f"{words}: the proof is {due}")


def check_request(interface, block):
    """A whole request. Returns the name of its operation."""
    request = Message(as_message(block.text))
    method, target, _ = request.first.split(" ")
    name, path_texts = interface.route_of(method, target)
    must(request.is_whole, f"{block.place}: its content-length is not that of its body")
    if not must(name, f"{block.place}: no operation for {method} {target}"):
        return None
    interface.check_parameters(name, target, path_texts, block.place)
    if request.body is not None:
        interface.check_body(name, request.body, block.place)
    check_signed(interface, name, method, target, request, block.place)
    return name


def check_json(interface, block):
    """The body of a request or of a reply, as its mark says."""
    marks = block.words[1:]
    if len(marks) == 3 and marks[0] == "request":
        name, path_texts = interface.route_of(marks[1], marks[2])
        if must(name, f"{block.place}: no operation for {marks}"):
            interface.check_parameters(name, marks[2], path_texts, block.place)
            interface.check_body(name, block.text, block.place)
    elif len(marks) == 4 and marks[0] == "reply":
        name, path_texts = interface.route_of(marks[2], marks[3])
        if must(name, f"{block.place}: no operation for {marks}"):
            interface.check_parameters(name, marks[3], path_texts, block.place)
            check_printed(block.text, block.place)
            response = interface.follow(interface.operations[name]["responses"].get(marks[1], {}))
            content = response.get("content", {}).get("application/json", {}).get("schema")
            if must(content is not None, f"{block.place}: {name} has no body with {marks[1]}"):
                fault = interface.fault_in(content, json.loads(block.text))
                must(fault is None, f"{block.place}: {name} {marks[1]}: {fault}")
    else:
        must(False, f"{block.place}: JSON that is not marked as a request or a reply")


def check_examples(interface, blocks):
    """Every example of a page. Returns its whole requests and replies, as pairs."""
    pairs, asked = [], None
    for block in blocks:
        kind = block.words[:2]
        if asked is not None:
            must(kind == ["http", "reply"], f"{block.place}: a request before it has no reply")
        if kind == ["http", "request"]:
            asked = check_request(interface, block), block
        elif kind == ["http", "reply"]:
            if must(asked is not None, f"{block.place}: no request before it") and asked[0]:
                interface.check_reply(asked[0], as_message(block.text), block.place)
                pairs.append((asked[0], asked[1], block))
            asked = None
        elif kind[:1] == ["json"]:
            check_json(interface, block)
    must(asked is None, "the last request of a page has no reply")
    return pairs


def check_purchase(pairs, turns):
    """The page of the purchase has the worked replies, byte by byte, in their order."""
    must([name for name, _, _ in pairs] == [name for name, _ in turns], "docs/PURCHASE.md: other requests than the worked ones")
    for (_, _, reply), (name, text) in zip(pairs, turns):
        must(as_message(reply.text) == text, f"{reply.place}: not the worked reply of {name}")


def rows_of(text, head):
    """The rows of the table with this head, each as its cells."""
    rows = []
    for line in text.split(head + "\n", 1)[1].splitlines()[1:]:
        if not line.startswith("|"):
            break
        rows.append([cell.strip() for cell in line.strip("|").split("|")])
    return rows


def check_catalogue(refusals):
    """The catalogue of the page has every code once, with its status and its members."""
    rows = rows_of(read("docs", "API.md"), "| Code | Status | Members | Who | Again? |")
    codes = [row[0].strip("`") for row in rows]
    must(sorted(codes) == sorted(refusals.status), f"the catalogue has other codes: {set(codes) ^ set(refusals.status)}")
    for code, status, members, *_ in rows:
        code = code.strip("`")
        if code in refusals.status:
            must(status == refusals.status[code], f"the catalogue has {code} under {status}")
            named = {name.replace("`", "") for name in members.split(", ") if name.startswith("`")}
            must(named == refusals.members_of(code), f"the catalogue has {code} with {named}")


# ---- the numbers of the pages, computed anew

TOP = 10**18


def cells_of(page, head):
    """The rows of a table, or a fault where the page has no such table."""
    text = read("docs", page)
    return rows_of(text, head) if must(head in text, f"docs/{page} has no table {head}") else []


def cost_of(asked, num, den):
    """What a row of costs is to say behind its rate: fee, sent, debit and what arrives, or why there is no price."""
    amount = int(re.search(r"\d+", asked).group())
    room = re.search(r"takes (\d+) more", asked)
    sent = amount - -(-amount // 100) if asked.startswith("debit") else -(-amount * den // num)
    fee = -(-(amount if asked.startswith("debit") else sent) // 100)
    arrives = sent * num // den
    if sent + fee > TOP:
        return ["", "", "`too_large`", ""]
    if sent == 0 or arrives == 0:
        return [str(fee), str(sent), "`too_small`", ""]
    if room and sent > -(-int(room.group(1)) * den // num):
        return [str(fee), str(sent), f"`over_receiver` with `room` {room.group(1)}", ""]
    return [str(fee), str(sent), str(sent + fee), str(arrives)]


def check_costs():
    for asked, rate, *shown in cells_of("PURCHASE.md", "| Asked for | Rate | Fee | Sent | Debit | Arrives |"):
        due = cost_of(asked, *map(int, rate.split("/")))
        must([cell.partition(":")[0] for cell in shown] == due, f"docs/PURCHASE.md: {asked} at {rate} costs {due}")


def check_pieces():
    """100 at 3/7 in 7 pieces, with a fee of 2."""
    sent = [min(100, n * -(-100 // 7)) for n in range(1, 8)]
    due = [["sent"] + sent, ["fee"] + [2 * s // 100 for s in sent], ["delivered"] + [s * 3 // 7 for s in sent]]
    shown = cells_of("PURCHASE.md", "| Piece | 1 | 2 | 3 | 4 | 5 | 6 | 7 |")
    must(shown == [[str(cell) for cell in row] for row in due], f"docs/PURCHASE.md: the pieces are {due}")


def check_intervals():
    """The starts of a month that begins on its last day, and the end right before the next one."""
    days = [calendar.monthrange(2024, month)[1] for month in range(1, 5)]
    starts = [datetime(2024, month, min(31, day)) for month, day in enumerate(days, 1)]
    said = [row[0].replace("Z", "").split(" to ") for row in cells_of("PURCHASE.md", "| Moment | Interval |")]
    due = [[start, end - timedelta(milliseconds=1)] for start, end in zip(starts, starts[1:])]
    shown = [[datetime.fromisoformat(moment) for moment in row] for row in said]
    must(shown[1:-1] == due and shown[0][0] < starts[0] and shown[-1] == [starts[3]], f"docs/PURCHASE.md: the intervals are {due}")


def check_attempts():
    """Twice as long each time, at most ten attempts."""
    waits = [10 * 2**n for n in range(9)]
    due = [[str(wait) for wait in waits], [str(sum(waits[: n + 1])) for n in range(9)]]
    shown = [row[1:] for row in cells_of("WEBHOOKS.md", "| Attempt | 2 | 3 | 4 | 5 | 6 | 7 | 8 | 9 | 10 |")]
    must(shown == due, f"docs/WEBHOOKS.md: the attempts are {due}")


# ---- the code of the pages


def secret_of_link():
    return hmac_of(MASTER, b"webhook")


def check_message(interface, text, secret, words):
    """A webhook message: its body, and its signature under a secret. Returns what a sample is given."""
    message = Message(text)
    must(message.is_whole, f"{words}: its content-length is not that of its body")
    check_printed(message.body, words)
    kind = "incomingPayment" if '"type":"incoming' in message.body else "outgoingPayment"
    schema = interface.document["webhooks"][kind]["post"]["requestBody"]["content"]["application/json"]["schema"]
    fault = interface.fault_in(schema, json.loads(message.body))
    must(fault is None, f"{words}: {fault}")
    field = message.fields["wallet-signature"]
    fault = interface.fault_in(interface.components["parameters"]["WebhookSignature"]["schema"], field)
    must(fault is None, f"{words}: wallet-signature: {fault}")
    moment = re.match(r"t=(\d+)", field).group(1)
    due = hmac_of(secret, f"{moment}.{message.body}".encode()).hex()
    must(field == f"t={moment}, v1={due}", f"{words}: the signature is {due}")
    return field, message.body, int(moment)


def verify_cases(field, body, moment):
    """What the samples are asked, and what they are to answer: the message, and eight that were changed."""
    secret = secret_of_link().hex()
    other = "0" if field[-1] != "0" else "1"
    return [
        ([secret, field, body, moment], True), ([secret, field, body, moment + 299999], True),
        ([secret, field, body, moment + 600000], False), ([secret, field, body.replace('"0"', '"1"'), moment], False),
        ([secret, field, body + " ", moment], False), ([secret, field[:-1] + other, body, moment], False),
        ([secret, field.replace("t=1", "t=2"), body, moment], False), (["00" * 32, field, body, moment], False),
        ([secret, field[:-1], body, moment], False), ([secret, "", body, moment], False),
    ]


# of a client, its key under a master secret, and what it asks: proofs that other tools made
ZERO_KEY = "411144bb829477d5110a8bc276ce755b4778381c956b941c00f8cce778071f95"
TOKEN = "GNAP a0b0b0b0b0b0b0b0b0b0b0b0b0b0b0b0b-11"
PAID = ('{"quoteId":"https://wallet.example/quotes/00000002-0000-8000-8000-000000000001",'
        '"walletAddress":"https://wallet.example/alice"}')
ASKED = ('{"access_token":{"access":[{"actions":["create","complete","read"],"type":"incoming-payment"}]},'
         '"client":"https://wallet.example/shop"}')
SIGNED = [
    ([ZERO_KEY, "POST", "/grant", ASKED, ""], "e1508c6f21a328bd0df8f6a986bedbb2852c2fc5c76245138879b2ac161ca420"),
    ([ZERO_KEY, "POST", "/outgoing-payments", PAID, TOKEN], "c45f1eb883e0b8d66d14c8708e830679a16b97c9dafb75a97b562f537f3b1dad"),
    ([ZERO_KEY, "GET", "/outgoing-payments/00000003-0000-8000-8000-000000000001", "", TOKEN],
     "a59568dd92319b378b81301d440d469c1435677bdadc25223cb7d50a6dfeb284"),
]


def other_master_cases():
    """The proofs that the tests of op_access have, under the bytes 0 to 31."""
    tests = read("crates", "op_access", "src", "tests.rt")
    key = hmac_of(bytes(range(32)), b"https://shop.example/app").hex()
    parts = ("method", "target", "body", "authorization", "proof")
    cases = []
    for block in re.findall(r"^const \w+: Signed = Signed \{(.*?)^\};", tests, re.M | re.S):
        method, target, body, authorization, proof = (json.loads(re.search(rf'{part}: b("(?:[^"\\]|\\.)*")', block).group(1)) for part in parts)
        cases.append(([key, method, target, body, authorization], proof))
    must(len(cases) == 3, f"op_access tests {len(cases)} proofs, and not 3")
    return cases


# a driver calls the sample's function on each case, with secrets and bodies as bytes
PYTHON = """
import json, sys
answers = []
for key, *others in json.load(open(sys.argv[1], encoding="utf-8")):
    answers.append({name}(bytes.fromhex(key), *[x.encode() if i == {bytes_at} else x for i, x in enumerate(others)]))
print(json.dumps(answers))
"""
JAVASCRIPT = """
const cases = JSON.parse(require("node:fs").readFileSync(process.argv[2], "utf8"));
const answers = cases.map(([key, ...others]) =>
  {name}(Buffer.from(key, "hex"), ...others.map((x, i) => (i === {bytes_at} ? Buffer.from(x) : x))));
console.log(JSON.stringify(answers));
"""
# of each sample: its function in either language, and which argument behind the key is bytes
SAMPLES = {"sign": ("proof_of", "proofOf", 2), "verify": ("is_from_wallet", "isFromWallet", 1)}


def run_sample(block, cases):
    """Runs a sample on cases, and looks at its answers."""
    language, what = block.words[:2]
    python_name, javascript_name, bytes_at = SAMPLES[what]
    if language == "javascript" and shutil.which("node") is None:
        print(f"node is not there: {block.place} was not run")
        return
    program, end, driver, name = (
        (sys.executable, ".py", PYTHON, python_name) if language == "python" else ("node", ".js", JAVASCRIPT, javascript_name))
    with tempfile.TemporaryDirectory() as folder:
        sample, asked = os.path.join(folder, "sample" + end), os.path.join(folder, "cases")
        with open(sample, "w", encoding="utf-8") as file:
            file.write(block.text + driver.replace("{name}", name).replace("{bytes_at}", str(bytes_at)))
        with open(asked, "w", encoding="utf-8") as file:
            json.dump([case for case, _ in cases], file)
        run = subprocess.run([program, sample, asked], capture_output=True, text=True, check=False)
    if must(run.returncode == 0, f"{block.place}: it fails: {run.stderr[-300:]}"):
        must(json.loads(run.stdout) == [due for _, due in cases], f"{block.place}: it answers {run.stdout.strip()}")


def check_samples(interface, blocks):
    """The code of the pages is run: on the given proofs, and on the worked message."""
    message = next(block for block in blocks if block.words[:2] == ["http", "message"])
    told = check_message(interface, as_message(message.text), secret_of_link(), message.place)
    cases = {"sign": SIGNED + other_master_cases(), "verify": verify_cases(*told)}
    check_vectors(cases["sign"])
    samples = [block for block in blocks if block.words[1:2] and block.words[1] in SAMPLES]
    must(len(samples) == 4, f"the pages have {len(samples)} samples of code, and not 4")
    for block in samples:
        run_sample(block, cases[block.words[1]])


def check_vectors(cases):
    """The page on signing has the key, the digest of its example, and each proof; and no page has other digests."""
    key = hmac_of(MASTER, b"https://wallet.example/shop").hex()
    must(key == ZERO_KEY, f"the key is {key}")
    known = [key, hashlib.sha256(PAID.encode()).hexdigest()] + [proof for _, proof in cases]
    for text in known:
        must(text in read("docs", "SIGNING.md"), f"docs/SIGNING.md: {text} is not there")
    for page in ("API.md", "SIGNING.md", "WEBHOOKS.md"):
        for text in re.findall(r"(?<!v1=)\b[0-9a-f]{64}\b", read("docs", page)):
            must(text in known + [MASTER.hex(), secret_of_link().hex()], f"docs/{page}: {text} is not known")


def check_hash():
    """The redirect of the purchase has the interaction hash of its parts (RFC 9635, section 4.2.3)."""
    parts = ["n", "n09090909090909090909090909090909-9", "i0a0a0a0a0a0a0a0a0a0a0a0a0a0a0a0a-10", "https://wallet.example/grant"]
    digest = hashlib.sha256("\n".join(parts).encode()).digest()
    text = base64.urlsafe_b64encode(digest).decode().rstrip("=")
    must(f"hash={text}&" in read("docs", "PURCHASE.md"), f"docs/PURCHASE.md: the hash is {text}")


def main():
    interface = Interface()
    if not interface.check_form():
        return 1
    check_routes(interface)
    check_answered(interface)
    check_rows(interface)
    check_members(interface)
    check_sections(interface)
    check_bodies(interface)
    check_queries(interface)
    check_tested_messages(interface)
    texts, turns = check_worked_replies(interface)
    refusals = check_refusals(interface, texts)
    check_catalogue(refusals)
    blocks = {page: blocks_of(page) for page in PAGES}
    pairs = {page: check_examples(interface, blocks[page]) for page in PAGES}
    check_purchase(pairs["PURCHASE.md"], turns)
    check_hash()
    for check in (check_costs, check_pieces, check_intervals, check_attempts):
        check()
    check_samples(interface, [block for page in PAGES for block in blocks[page]])
    if not FAULTS:
        count = sum(len(one) for one in blocks.values())
        worked = len(worked_texts("WorkedReplies.antt") + worked_texts("WorkedForms.antt"))
        print(f"ok      {len(interface.routes)} routes, {len(refusals.status)} codes, {worked} worked replies, {len(tested_bodies())} tested bodies, {count} blocks of the pages")
    return 1 if FAULTS else 0


if __name__ == "__main__":
    sys.exit(main())
