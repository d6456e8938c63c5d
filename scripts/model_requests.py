"""What a request says: its route, its parameters and the members of its body, by docs/API.md. Part of scripts/model.py."""
from collections import namedtuple

from model_forms import (RESERVED, is_code, is_finish_uri, is_path, is_visible, read_interval, read_json, read_value)
from model_history import Finish

ACTIONS = {"incoming-payment": ("create", "complete", "read", "read-all", "list", "list-all"),
           "quote": ("create", "read", "read-all"),
           "outgoing-payment": ("create", "read", "read-all", "list", "list-all")}

Amount = namedtuple("Amount", "code scale value")


class Refused(Exception):
    """A refusal, with its status, its code and the members beside it."""

    def __init__(self, status, code, **members):
        super().__init__(code)
        self.status, self.members = status, dict(members, code=code)


class NoMethod(Exception):
    """No route for the method: the methods that the path has."""


def refuse_if(condition, status, code, **members):
    if condition:
        raise Refused(status, code, **members)


# ---- forms of members: each answers what a JSON value says, or None where it breaks the form


def text(value):
    return value if isinstance(value, str) else None


def text_of(read):
    """What `read` makes of a text."""
    return lambda value: read(value) if isinstance(value, str) else None


def text_with(holds):
    """A text of which something holds."""
    return lambda value: value if isinstance(value, str) and holds(value) else None


def whole(low, high):
    return lambda value: value if type(value) is int and low <= value <= high else None


asset_code, asset_scale = text_with(is_code), whole(0, 18)


def asset_name(value):
    """Code and scale."""
    if not isinstance(value, dict):
        return None
    code, scale = asset_code(value.get("assetCode")), asset_scale(value.get("assetScale"))
    return None if code is None or scale is None else (code, scale)


def amount(value):
    name, count = asset_name(value), text_of(read_value)(value.get("value")) if isinstance(value, dict) else None
    return None if name is None or count is None else Amount(*name, count)


def access_items(value):
    """The items of `access_token`, as (type, actions, identifier, limits), in the order of the types."""
    access = value.get("access") if isinstance(value, dict) else None
    if not isinstance(access, list) or not 1 <= len(access) <= 3:
        return None
    items = [access_item(item) for item in access]
    if None in items or len({item[0] for item in items}) < len(items):
        return None
    return sorted(items, key=lambda item: list(ACTIONS).index(item[0]))


def access_item(value):
    kind = value.get("type") if isinstance(value, dict) else None
    if not isinstance(kind, str) or kind not in ACTIONS:
        return None
    actions, identifier, limits = value.get("actions"), value.get("identifier"), value.get("limits")
    if not isinstance(actions, list) or not actions or any(text(a) not in ACTIONS[kind] for a in actions):
        return None
    if kind == "quote":
        return kind, actions, None, None
    if text(identifier) is None and (identifier is not None or kind == "outgoing-payment"):
        return None
    limits = access_limits(limits) if kind == "outgoing-payment" and limits is not None else None
    return None if limits == "broken" else (kind, actions, identifier, limits)


def access_limits(value):
    """The receiver, the limit on the debit, the limit on what is received, and the interval, each or None."""
    if not isinstance(value, dict):
        return "broken"
    limits = []
    for name, read in (("receiver", text), ("debitAmount", amount), ("receiveAmount", amount),
                       ("interval", text_with(read_interval))):
        limits.append(None if value.get(name) is None else read(value[name]))
        if value.get(name) is not None and limits[-1] is None:
            return "broken"
    return "broken" if limits[1] is not None and limits[2] is not None else tuple(limits)


def interaction(value):
    """Whether `start` has `redirect`, and the finish."""
    start = value.get("start") if isinstance(value, dict) else None
    if not isinstance(start, list) or any(text(way) is None for way in start):
        return None
    finish = value.get("finish")
    if finish is None:
        return "redirect" in start, None
    if not isinstance(finish, dict) or finish.get("method") != "redirect":
        return None
    uri, nonce = text(finish.get("uri")), text(finish.get("nonce"))
    if uri is None or nonce is None or not is_finish_uri(uri) or not is_visible(nonce, 1, 128):
        return None
    return "redirect" in start, Finish(uri, nonce)


class Asked:
    """A request that came: its moment, its word, who asks, and what its path, its query and its body say."""

    def __init__(self, at, word, who, segments, query, is_grant):
        self.at, self.word, self.who, self.segments, self.query = at, word, who, segments, query
        self.is_grant, self.members = is_grant, None

    def bad(self, name):
        return Refused(400, "invalid_request" if self.is_grant else "bad_field", name=name)

    def read_body(self, body):
        try:
            self.members = read_json(body)
        except ValueError:
            self.members = None
        refuse_if(not isinstance(self.members, dict), 400, "invalid_request" if self.is_grant else "bad_json")

    def member(self, name, read):
        value = read(self.members[name]) if self.has(name) else None
        if value is None:
            raise self.bad(name)
        return value

    def optional(self, name, read, absent=None):
        return self.member(name, read) if self.has(name) else absent

    def has(self, name):
        return self.members.get(name) is not None

    def parameter(self, name, read, absent=None):
        found = next((value for key, value in self.query if key == name.encode()), None)
        if found is None and absent is not None:
            return absent
        try:
            value = None if found is None else read(found.decode())
        except ValueError:
            value = None
        if value is None:
            raise self.bad(name)
        return value


def read_query(query):
    """The names and values of a query, as a form has them."""
    return [(decoded(part.partition("=")[0]), decoded(part.partition("=")[2])) for part in query.split("&")]


def decoded(part):
    """A `+` is a blank, and `%XX` a byte."""
    first, *rest = part.replace("+", " ").encode().split(b"%")
    for piece in rest:
        digits = piece[:2]
        if len(digits) == 2 and all(digit in b"0123456789abcdefABCDEF" for digit in digits):
            first += bytes([int(digits, 16)]) + piece[2:]
        else:
            first += b"%" + piece
    return first


# Method, path, whether it has members, and the function that answers.
ROUTES = (
    ("POST", "/admin/origin", True, "set_origin"),
    ("POST", "/admin/assets", True, "add_asset"),
    ("GET", "/admin/assets/*/*", False, "show_asset"),
    ("POST", "/admin/wallet-addresses", True, "add_address"),
    ("GET", "/admin/wallet-addresses/*", False, "show_balance"),
    ("POST", "/admin/deposits", True, "deposit"),
    ("POST", "/admin/withdrawals", True, "withdraw"),
    ("POST", "/admin/rates", True, "set_rate"),
    ("POST", "/admin/interactions/*/accept", False, "accept"),
    ("POST", "/admin/interactions/*/reject", False, "reject"),
    ("GET", "/admin/outgoing-payments/*", False, "show_progress"),
    ("POST", "/admin/outgoing-payments/*/cancel", False, "cancel_payment"),
    ("POST", "/grant", True, "ask_grant"),
    ("POST", "/continue/*", True, "continue_grant"),
    ("DELETE", "/continue/*", False, "cancel_grant"),
    ("POST", "/token/*", False, "rotate_token"),
    ("DELETE", "/token/*", False, "revoke_token"),
    ("POST", "/incoming-payments", True, "make_incoming"),
    ("GET", "/incoming-payments", False, "list_incomings"),
    ("GET", "/incoming-payments/*", False, "show_incoming"),
    ("POST", "/incoming-payments/*/complete", False, "complete_incoming"),
    ("POST", "/quotes", True, "make_quote"),
    ("GET", "/quotes/*", False, "show_quote"),
    ("POST", "/outgoing-payments", True, "make_outgoing"),
    ("GET", "/outgoing-payments", False, "list_outgoings"),
    ("GET", "/outgoing-payments/*", False, "show_outgoing"),
    ("GET", "/monetization", False, "show_monetization"),
)


def find_route(method, path):
    """The function that answers, the segments that stand for parameters, and whether there are members."""
    if not path.startswith("/"):
        raise Refused(404, "not_found")
    segments = path[1:].split("/")
    if segments[0] not in RESERVED:
        refuse_if(not is_path(path), 404, "not_found")
        if method != "GET":
            raise NoMethod("GET")
        return "show_address", [path], False
    found = {}
    for other, pattern, has_members, name in ROUTES:
        parts = pattern[1:].split("/")
        if len(parts) == len(segments) and all(p == s or (p == "*" and s) for p, s in zip(parts, segments)):
            found[other] = name, [s for p, s in zip(parts, segments) if p == "*"], has_members
    refuse_if(not found, 404, "not_found")
    if method not in found:
        raise NoMethod(", ".join(sorted(found)))
    return found[method]
