"""The journal of a history as docs/FORMATS.md has it: written in rounds of version 2, read in both. Part of
scripts/model.py."""
from model_forms import LAST
from model_history import ACTS, Cap, Entry, Finish, Item, Limits
from model_requests import ACTIONS

HEADER = b"OPWJ\0\0\0\1"
LIMIT = 268435456
ACTION_BITS = {"create": 1, "complete": 2, "read": 4, "read-all": 8, "list": 16, "list-all": 32}


class NoJournal(Exception):
    """The bytes spell no history: a frame or a round is broken."""


class Cursor:
    """What is left of a payload."""

    def __init__(self, data):
        self.data, self.at = data, 0

    def take(self, count):
        self.at += count
        if self.at > len(self.data):
            raise NoJournal("a payload ends within a round")
        return self.data[self.at - count:self.at]

    def is_at_end(self):
        return self.at == len(self.data)


class Form:
    """How a field is written, and how it is read from a cursor."""

    def __init__(self, write, read):
        self.write, self.read = write, read


def hold(value, condition):
    if not condition:
        raise NoJournal("a byte with which no round goes on")
    return value


def number(width, low=0, high=None):
    def read(cursor):
        value = int.from_bytes(cursor.take(width), "big")
        return hold(value, low <= value and (high is None or value <= high))
    return Form(lambda value: value.to_bytes(width, "big"), read)


u8, u16, u32, u64, moment = number(1), number(2), number(4), number(8), number(8, 0, LAST)
word = Form(bytes, lambda cursor: cursor.take(16))


def text(limit):
    """A text is kept as its bytes; one that is no UTF-8 is read, and is no form of anything."""
    def read(cursor):
        length = u16.read(cursor)
        return cursor.take(hold(length, length <= limit)).decode(errors="surrogateescape")

    def write(value):
        data = value.encode(errors="surrogateescape")
        return u16.write(len(data)) + data
    return Form(write, read)


def option(form):
    return Form(lambda value: b"\0" if value is None else b"\1" + form.write(value),
                lambda cursor: form.read(cursor) if number(1, 0, 1).read(cursor) else None)


def one_of(*words):
    """A word of a table, as its number from 1."""
    return Form(lambda value: u8.write(words.index(value) + 1),
                lambda cursor: words[number(1, 1, len(words)).read(cursor) - 1])


def fields(make, *forms):
    """One field behind the other."""
    return Form(lambda value: b"".join(form.write(part) for form, part in zip(forms, value, strict=True)),
                lambda cursor: make(*[form.read(cursor) for form in forms]))


def read_cap(cursor):
    kind = number(1, 0, 2).read(cursor)
    return Cap(kind == 1, u32.read(cursor), u64.read(cursor)) if kind else None


def write_cap(cap):
    return b"\0" if cap is None else u8.write(1 if cap.of_debit else 2) + u32.write(cap.asset) + u64.write(cap.value)


def read_item(cursor):
    kind, bits = one_of(*ACTIONS).read(cursor), u8.read(cursor)
    hold(bits, 0 < bits <= 63 and bits == bits & sum(ACTION_BITS[action] for action in ACTIONS[kind]))
    actions = tuple(action for action in ACTIONS[kind] if bits & ACTION_BITS[action])
    return Item(kind, actions, option(u32).read(cursor), option(limits).read(cursor))


def write_item(item):
    bits = sum(ACTION_BITS[action] for action in item.actions)
    return (one_of(*ACTIONS).write(item.type) + u8.write(bits) + option(u32).write(item.identifier)
            + option(limits).write(item.limits))


def read_items(cursor):
    items = tuple(read_item(cursor) for _ in range(number(1, 1, 3).read(cursor)))
    places = [list(ACTIONS).index(item.type) for item in items]
    return hold(items, places == sorted(set(places)))


limits = fields(Limits, option(u64), Form(write_cap, read_cap), option(text(128)))
items = Form(lambda value: u8.write(len(value)) + b"".join(map(write_item, value)), read_items)
account = fields(lambda kind, row: (kind, row), one_of("pool", "fees", "wallet"), u32)
finish = option(fields(Finish, text(512), text(128)))
outcome = Form(u16.write, lambda cursor: (lambda value: hold(value, value == 0 or 100 <= value <= 999))(u16.read(cursor)))
metadata, transfer = option(text(1024)), (text(64), account, u64)
price = (u64,) * 6

FIELDS = {
    "OriginSet": (text(200),),
    "AssetAdded": (text(8), u8, u8),
    "AddressAdded": (text(128), u32, option(text(128))),
    "Deposited": transfer,
    "Withdrawn": transfer,
    "RateSet": (u32, u32, u64, u64),
    "IncomingMade": (u64, u32, option(u64), moment, metadata),
    "IncomingCompleted": (u64, u64),
    "IncomingExpired": (u64,),
    "QuoteMade": (u64, u32, u64, one_of("debit", "receive", "rest"), u64) + price,
    "GrantAsked": (text(256), items, finish, word),
    "GrantAccepted": (u64, word),
    "GrantRejected": (u64, word),
    "GrantPolled": (u64,),
    "GrantContinued": (u64, word),
    "GrantCancelled": (u64,),
    "TokenRotated": (u64, word),
    "TokenRevoked": (u64,),
    "OutgoingMade": (u64, u64, metadata),
    "OutgoingFunded": (u64, u64),
    "OutgoingSent": (u64, u64),
    "OutgoingCompleted": (u64, u64),
    "OutgoingFailed": (u64, u64, one_of("quote_expired", "receiver_closed", "cancelled")),
    "Attempted": (u64, outcome),
    "OutgoingDirect": (u64, u32, u64) + price + (metadata,),
}
FORMS = [fields(act, *FIELDS[act.__name__]) for act in ACTS]


def act_data(act):
    """The kind of an act, and its fields in their order."""
    kind = ACTS.index(type(act))
    return u8.write(kind + 1) + FORMS[kind].write(act)


def round_data(entries):
    """A round of version 2: the byte 2, the moment that all entries have, and their acts."""
    return b"\2" + moment.write(entries[0].at) + b"".join(act_data(entry.act) for entry in entries)


def journal(rounds):
    """The journal to which the rounds were committed; one without entries is none."""
    payloads = [round_data(entries) for entries in rounds if entries]
    return HEADER + b"".join(b"\1" + u32.write(len(payload)) + payload for payload in payloads) + b"\0"


def read_round(payload):
    """The entries of a round of either version."""
    cursor, entries, is_second = Cursor(payload), [], payload[:1] == b"\2"
    at = moment.read(cursor) if is_second and cursor.take(1) else None
    while not entries or not cursor.is_at_end():
        at = at if is_second else moment.read(cursor)
        kind = number(1, 1, 25 if is_second else 24).read(cursor)
        entries.append(Entry(at, FORMS[kind - 1].read(cursor)))
    return entries


def read_journal(data):
    """The rounds that a journal spells, up to its first gate that is not open."""
    if len(data) <= 9:
        return []
    if not data.startswith(HEADER):
        raise NoJournal("another header")
    rounds, gate = [], 8
    while data[gate] == 1:
        length = int.from_bytes(data[gate + 1:gate + 5], "big")
        if length == 0 or gate + 6 + length > min(len(data), LIMIT):
            raise NoJournal("the frame at %d" % gate)
        rounds.append(read_round(data[gate + 5:gate + 5 + length]))
        gate += 5 + length
    return rounds
