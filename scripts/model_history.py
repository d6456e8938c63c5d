"""The history of a wallet: its acts, and what they say of money, grants and events. Part of scripts/model.py.

An account is ("outside", asset), ("pool", asset), ("fees", asset) or ("wallet", address). Assets, addresses, payments,
quotes, grants and events are numbered from 1 in the order in which they were made.
"""
from collections import namedtuple

from model_forms import LAST, TOP, floor_mul, page_of, read_interval

OriginSet = namedtuple("OriginSet", "origin")
AssetAdded = namedtuple("AssetAdded", "code scale pieces")
AddressAdded = namedtuple("AddressAdded", "path asset name")
Deposited = namedtuple("Deposited", "transfer account value")
Withdrawn = namedtuple("Withdrawn", "transfer account value")
RateSet = namedtuple("RateSet", "source target num den")
IncomingMade = namedtuple("IncomingMade", "grant address amount expiry metadata")
IncomingCompleted = namedtuple("IncomingCompleted", "grant incoming")
IncomingExpired = namedtuple("IncomingExpired", "incoming")
QuoteMade = namedtuple("QuoteMade", "grant address incoming mode asked debit source fee receive num den")
GrantAsked = namedtuple("GrantAsked", "client items finish word")
GrantAccepted = namedtuple("GrantAccepted", "grant word")
GrantRejected = namedtuple("GrantRejected", "grant word")
GrantPolled = namedtuple("GrantPolled", "grant")
GrantContinued = namedtuple("GrantContinued", "grant word")
GrantCancelled = namedtuple("GrantCancelled", "grant")
TokenRotated = namedtuple("TokenRotated", "grant word")
TokenRevoked = namedtuple("TokenRevoked", "grant")
OutgoingMade = namedtuple("OutgoingMade", "grant quote metadata")
OutgoingFunded = namedtuple("OutgoingFunded", "payment step")
OutgoingSent = namedtuple("OutgoingSent", "payment step")
OutgoingCompleted = namedtuple("OutgoingCompleted", "payment step")
OutgoingFailed = namedtuple("OutgoingFailed", "payment step reason")
Attempted = namedtuple("Attempted", "event outcome")
OutgoingDirect = namedtuple("OutgoingDirect", "grant address incoming debit source fee receive num den metadata")

ACTS = (OriginSet, AssetAdded, AddressAdded, Deposited, Withdrawn, RateSet, IncomingMade, IncomingCompleted,
        IncomingExpired, QuoteMade, GrantAsked, GrantAccepted, GrantRejected, GrantPolled, GrantContinued, GrantCancelled,
        TokenRotated, TokenRevoked, OutgoingMade, OutgoingFunded, OutgoingSent, OutgoingCompleted, OutgoingFailed,
        Attempted, OutgoingDirect)

Entry = namedtuple("Entry", "at act")
Item = namedtuple("Item", "type actions identifier limits")
Limits = namedtuple("Limits", "receiver cap interval")
Cap = namedtuple("Cap", "of_debit asset value")
Finish = namedtuple("Finish", "uri nonce")
Asset = namedtuple("Asset", "code scale pieces")
Address = namedtuple("Address", "path asset name")
Quote = namedtuple("Quote", "grant address incoming debit source fee receive num den made expiry")

TOKEN_LIFE = 600000
QUOTE_LIFE = 300000
FIRST_WAIT = 10000
MOST_ATTEMPTS = 10


def later(moment, milliseconds):
    """A lifetime ends at the last moment at the latest."""
    return min(moment + milliseconds, LAST)


def secret(letter, word, place):
    return "%s%s-%d" % (letter, word.hex(), place)


class Incoming:
    """An incoming payment. What it takes is bounded by its amount, or by the greatest value."""

    def __init__(self, act, at):
        self.grant, self.address, self.amount, self.metadata = act.grant, act.address, act.amount, act.metadata
        self.made, self.expiry = at, act.expiry
        self.received, self.was_completed, self.was_expired = 0, False, False

    def bound(self):
        return TOP if self.amount is None else self.amount

    def room(self):
        return max(0, self.bound() - self.received)

    def takes_more(self):
        return not self.was_completed and not self.was_expired and self.received < self.bound()

    def is_open(self, at):
        return self.takes_more() and at < self.expiry

    def is_due(self, at):
        return self.takes_more() and at >= self.expiry

    def is_completed(self):
        return self.was_completed or self.received >= self.bound()


class Grant:
    """A grant with its tokens. `issued` is the moment from which its access token lives."""

    def __init__(self, act, at, place):
        self.client, self.items, self.finish = act.client, act.items, act.finish
        self.told_to_wait, self.state, self.revoked, self.issued, self.access = at, "pending", False, None, None
        self.continuation, self.nonce = secret("c", act.word, place), secret("n", act.word, place)
        self.reference = None
        if "outgoing-payment" not in [item.type for item in act.items]:
            self.issue(act.word, at, place)

    def issue(self, word, at, place):
        self.state, self.issued, self.access = "issued", at, secret("a", word, place)

    def is_current(self, token):
        return self.access is not None and token == self.access and not self.revoked and self.state != "cancelled"

    def is_live(self, token, at):
        return self.is_current(token) and at < later(self.issued, TOKEN_LIFE)

    def item(self, kind):
        return next((item for item in self.items if item.type == kind), None)

    def limits(self):
        item = self.item("outgoing-payment")
        return item and item.limits

    def repetition(self, at):
        """The number of the limit's repetition at a moment, or `before` or `after`; 0 where it has no interval."""
        limits = self.limits()
        return read_interval(limits.interval).place_of(at) if limits and limits.interval is not None else 0


class Payment:
    """An outgoing payment: what it is to do, and how far it is."""

    def __init__(self, act, at, terms, payee, pieces):
        self.grant, self.metadata, self.made, self.terms = act.grant, act.metadata, at, terms
        self.quote = act.quote if isinstance(act, OutgoingMade) else None
        self.payer, self.payee, self.incoming = terms.address, payee, terms.incoming
        self.piece = -(-terms.source // pieces)
        self.state, self.step, self.sent, self.fee, self.delivered, self.reason = "FUNDING", 0, 0, 0, 0, None
        self.repetition = None

    def has_ended(self):
        return self.state in ("COMPLETED", "FAILED")

    def held(self):
        return self.terms.debit - self.sent - self.fee if self.state == "SENDING" else 0

    def growth(self):
        """What the next piece sends, costs and delivers. The rate's floor is that of all that was sent."""
        terms = self.terms
        sent = min(terms.source, self.sent + self.piece)
        fee, delivered = terms.fee * sent // terms.source, floor_mul(sent, terms.num, terms.den)
        return sent - self.sent, fee - self.fee, delivered - self.delivered

    def weight(self, of_debit):
        """What it counts of a limit: in full from the beginning, and what it really took where it failed."""
        if self.state == "FAILED":
            return self.sent + self.fee if of_debit else self.delivered
        return self.terms.debit if of_debit else self.terms.receive


class Event:
    """An event, with the values right after its act, and the moment from which its next attempt is due."""

    def __init__(self, word, row, at, values):
        self.word, self.row, self.at, self.values, self.attempts, self.next = word, row, at, values, 0, at

    def note(self, at, outcome):
        self.attempts += 1
        done = 200 <= outcome <= 299 or self.attempts == MOST_ATTEMPTS
        self.next = None if done else at + FIRST_WAIT * 2 ** (self.attempts - 1)

    def is_due(self, at):
        return self.next is not None and at >= self.next


class History:
    """The acts in their order, the movements of each, and what they come to."""

    def __init__(self):
        self.entries, self.movements, self.origin, self.origin_was_set = [], [], "https://wallet.example", False
        self.assets, self.addresses, self.transfers, self.rates = [], [], {}, {}
        self.incomings, self.quotes, self.payments, self.grants, self.events = [], [], [], [], []
        self.posted, self.grant_of_token, self.paid_quotes, self.ended = {}, {}, set(), []
        self.asset_numbers, self.address_numbers = {}, {}
        self.running, self.waiting_events, self.open_incomings = {}, {}, {}
        self.payments_under, self.incomings_at, self.payments_from = {}, {}, {}

    def last(self):
        return self.entries[-1].at if self.entries else 0

    def moment(self, clock):
        """Now, where the clock gives this answer."""
        return max(self.last(), min(clock, LAST))

    def add(self, at, act):
        self.entries.append(Entry(at, act))
        self.movements.append([])
        getattr(self, "take_" + type(act).__name__)(at, act)

    # ---- money

    def move(self, account, value):
        self.movements[-1].append((account, value))
        self.posted[account] = self.posted.get(account, 0) + value

    def posted_on(self, account):
        return self.posted.get(account, 0)

    def held_on(self, account):
        return sum(payment.held() for payment in self.running.values() if ("wallet", payment.payer) == account)

    def available_on(self, account):
        return self.posted_on(account) - self.held_on(account)

    def total(self, asset):
        return -self.posted_on(("outside", asset))

    def asset_of(self, account):
        return self.addresses[account[1] - 1].asset if account[0] == "wallet" else account[1]

    def rate(self, source, target):
        return (1, 1) if source == target else self.rates.get((source, target))

    def take_Deposited(self, at, act):
        self.transfers[act.transfer] = act
        self.move(act.account, act.value)
        self.move(("outside", self.asset_of(act.account)), -act.value)

    def take_Withdrawn(self, at, act):
        self.transfers[act.transfer] = act
        self.move(act.account, -act.value)
        self.move(("outside", self.asset_of(act.account)), act.value)

    def take_RateSet(self, at, act):
        self.rates[act.source, act.target] = act.num, act.den

    # ---- names

    def take_OriginSet(self, at, act):
        self.origin, self.origin_was_set = act.origin, True

    def take_AssetAdded(self, at, act):
        self.assets.append(Asset(*act))
        self.asset_numbers[act.code, act.scale] = len(self.assets)

    def take_AddressAdded(self, at, act):
        self.addresses.append(Address(*act))
        self.address_numbers[act.path] = len(self.addresses)

    # ---- incoming payments and quotes

    def take_IncomingMade(self, at, act):
        self.incomings.append(Incoming(act, at))
        self.open_incomings[len(self.incomings)] = self.incomings[-1]
        self.incomings_at.setdefault(act.address, []).append(len(self.incomings))
        self.tell_incoming("created", len(self.incomings), at)

    def take_IncomingCompleted(self, at, act):
        self.incomings[act.incoming - 1].was_completed = True
        self.tell_incoming("completed", act.incoming, at)

    def take_IncomingExpired(self, at, act):
        self.incomings[act.incoming - 1].was_expired = True
        self.tell_incoming("expired", act.incoming, at)

    def take_QuoteMade(self, at, act):
        terms = act.debit, act.source, act.fee, act.receive, act.num, act.den
        self.quotes.append(Quote(act.grant, act.address, act.incoming, *terms, at, later(at, QUOTE_LIFE)))

    # ---- grants

    def take_GrantAsked(self, at, act):
        self.grants.append(Grant(act, at, len(self.entries)))
        self.keep_token(len(self.grants))

    def keep_token(self, number):
        if self.grants[number - 1].access is not None:
            self.grant_of_token[self.grants[number - 1].access] = number

    def take_GrantAccepted(self, at, act):
        grant = self.grants[act.grant - 1]
        grant.state, grant.reference = "accepted", secret("i", act.word, len(self.entries))

    def take_GrantRejected(self, at, act):
        grant = self.grants[act.grant - 1]
        grant.state, grant.reference = "rejected", secret("i", act.word, len(self.entries))

    def take_GrantPolled(self, at, act):
        self.grants[act.grant - 1].told_to_wait = at

    def take_GrantContinued(self, at, act):
        grant = self.grants[act.grant - 1]
        grant.issue(act.word, at, len(self.entries))
        grant.continuation = secret("c", act.word, len(self.entries))
        self.keep_token(act.grant)

    def take_GrantCancelled(self, at, act):
        self.grants[act.grant - 1].state = "cancelled"

    def take_TokenRotated(self, at, act):
        self.grants[act.grant - 1].issue(act.word, at, len(self.entries))
        self.keep_token(act.grant)

    def take_TokenRevoked(self, at, act):
        self.grants[act.grant - 1].revoked = True

    def spent(self, number, repetition):
        """What was spent under a grant in one repetition of its limit; 0 where it limits no amount."""
        limits = self.grants[number - 1].limits()
        if not limits or not limits.cap:
            return 0
        return sum(payment.weight(limits.cap.of_debit) for payment in self.payments_under.get((number, repetition), ()))

    # ---- outgoing payments

    def take_OutgoingMade(self, at, act):
        self.paid_quotes.add(act.quote)
        self.add_payment(at, act, self.quotes[act.quote - 1])

    def take_OutgoingDirect(self, at, act):
        terms = act.debit, act.source, act.fee, act.receive, act.num, act.den
        self.add_payment(at, act, Quote(act.grant, act.address, act.incoming, *terms, at, later(at, QUOTE_LIFE)))

    def add_payment(self, at, act, terms):
        payee, payer = self.incomings[terms.incoming - 1].address, self.addresses[terms.address - 1]
        payment = Payment(act, at, terms, payee, self.assets[payer.asset - 1].pieces)
        self.payments.append(payment)
        self.running[len(self.payments)] = payment
        payment.repetition = self.grants[act.grant - 1].repetition(at)
        self.payments_under.setdefault((act.grant, payment.repetition), []).append(payment)
        self.payments_from.setdefault(payment.payer, []).append(len(self.payments))
        self.tell_outgoing("created", len(self.payments), at)

    def take_OutgoingFunded(self, at, act):
        payment = self.payments[act.payment - 1]
        payment.state, payment.step = "SENDING", payment.step + 1

    def take_OutgoingSent(self, at, act):
        self.post_piece(at, act.payment)

    def take_OutgoingCompleted(self, at, act):
        self.post_piece(at, act.payment)

    def post_piece(self, at, number):
        payment = self.payments[number - 1]
        incoming, taken = self.incomings[payment.incoming - 1], self.incomings[payment.incoming - 1].takes_more()
        sent, fee, delivered = payment.growth()
        source, target = self.addresses[payment.payer - 1].asset, self.addresses[payment.payee - 1].asset
        self.move(("wallet", payment.payer), -(sent + fee))
        self.move(("fees", source), fee)
        if source != target:
            self.move(("pool", source), sent)
            self.move(("pool", target), -delivered)
        self.move(("wallet", payment.payee), delivered)
        payment.sent, payment.fee, payment.delivered = payment.sent + sent, payment.fee + fee, payment.delivered + delivered
        payment.step += 1
        incoming.received += delivered
        if payment.sent == payment.terms.source:
            self.end(payment, number, "COMPLETED", None)
            self.tell_outgoing("completed", number, at)
        if taken and not incoming.takes_more():
            self.tell_incoming("completed", payment.incoming, at)

    def take_OutgoingFailed(self, at, act):
        payment = self.payments[act.payment - 1]
        payment.step += 1
        self.end(payment, act.payment, "FAILED", act.reason)
        self.tell_outgoing("failed", act.payment, at)

    def end(self, payment, number, state, reason):
        payment.state, payment.reason = state, reason
        self.ended.append(number)
        del self.running[number]

    # ---- events and feeds

    def tell(self, event):
        self.events.append(event)
        self.waiting_events[len(self.events)] = event

    def tell_incoming(self, word, number, at):
        incoming = self.incomings[number - 1]
        if not incoming.takes_more():
            del self.open_incomings[number]
        self.tell(Event("incoming_payment." + word, number, at, (incoming.received,)))

    def tell_outgoing(self, word, number, at):
        payment = self.payments[number - 1]
        values = payment.terms.debit, payment.terms.receive, payment.sent
        self.tell(Event("outgoing_payment." + word, number, at, values))

    def take_Attempted(self, at, act):
        event = self.events[act.event - 1]
        event.note(at, act.outcome)
        if event.next is None:
            del self.waiting_events[act.event]

    def feed(self, client, address, page):
        """The client's ended payments from the address with the page and with something sent, as they ended."""
        for number in self.ended:
            payment = self.payments[number - 1]
            if (payment.payer == address and payment.sent > 0 and self.grants[payment.grant - 1].client == client
                    and page_of(payment.metadata) == page):
                yield payment

    # ---- work

    def work(self, at, cursor):
        """The tasks of a work round, and the next cursor: at most 64 expiries, then steps; 256 in all."""
        due = [number for number in sorted(self.open_incomings) if self.incomings[number - 1].is_due(at)][:64]
        room = 256 - len(due)
        left = [number for number in sorted(self.running) if number > cursor]
        steps = [("step", number, self.payments[number - 1].step) for number in left[:room]]
        return [("expire", number) for number in due] + steps, left[room - 1] if len(left) >= room else 0

    def hooks_due(self, at):
        """The first 16 events of which an attempt is due."""
        return [number for number in sorted(self.waiting_events) if self.events[number - 1].is_due(at)][:16]

    def audit(self):
        """The summary of the history, a line for the entries, for each asset and for the payments."""
        lines = ["entries %d" % len(self.entries)]
        for number, asset in enumerate(self.assets, 1):
            own = [("wallet", n) for n, address in enumerate(self.addresses, 1) if address.asset == number]
            lines.append("asset %s/%d total %d pool %d fees %d wallets %d held %d" % (
                asset.code, asset.scale, self.total(number), self.posted_on(("pool", number)),
                self.posted_on(("fees", number)), sum(map(self.posted_on, own)), sum(map(self.held_on, own))))
        lines.append("payments %d ended %d" % (len(self.payments), len(self.ended)))
        return "".join(line + "\n" for line in lines)
