"""The six laws of docs/LAWS.md, looked at behind every act of a model's history. Part of scripts/model.py.

They see the acts and the movements that the wallet made of them, and none of its sums: what a payment is to do is taken
from the act that recorded its price, and how far it is from the number of its pieces.
"""
from model import Wallet
from model_forms import TOP, read_interval


class Broken(Exception):
    """A law does not hold behind an act."""


class Told:
    """What the acts tell of a payment."""

    def __init__(self, grant, price, payee, pieces, repetition):
        self.grant, self.price, self.payer, self.payee, self.repetition = grant, price, price.address, payee, repetition
        self.piece = (price.source + pieces - 1) // pieces
        self.pieces_sent, self.lost, self.brought, self.is_running, self.has_failed = 0, 0, 0, False, False

    def sent(self):
        return min(self.price.source, self.pieces_sent * self.piece)

    def weight(self, of_debit):
        if self.has_failed:
            return self.lost if of_debit else self.brought
        return self.price.debit if of_debit else self.price.receive


class Laws:
    """The laws over the acts that were taken so far."""

    def __init__(self):
        self.last, self.count = 0, 0
        self.sums, self.came, self.pieces, self.assets = {}, {}, [], []
        self.payees, self.prices, self.caps, self.payments = [], [], [], []
        self.steps, self.running, self.received = set(), {}, {}

    def take(self, entry, movements):
        self.count += 1
        at, act = entry
        kind = type(act).__name__
        self.hold(at >= self.last, "moments never fall")
        self.last = at
        getattr(self, "take_" + kind, lambda at, act: None)(at, act)
        self.sums_to_zero(movements)
        if kind in ("OutgoingSent", "OutgoingCompleted"):
            self.debits_and_delivers(act.payment, kind == "OutgoingCompleted", movements)
        if kind in ("OutgoingMade", "OutgoingDirect", "OutgoingFailed"):
            self.keeps_cap(self.payments[-1] if kind != "OutgoingFailed" else self.payments[act.payment - 1])
        touched = {account for account, _ in movements}
        if kind == "OutgoingFunded":
            touched.add(("wallet", self.payments[act.payment - 1].payer))
        for account in touched:
            self.is_covered_below_top(account)

    def hold(self, condition, law):
        if not condition:
            raise Broken("%s, act %d" % (law, self.count))

    # ---- what the acts tell

    def take_AssetAdded(self, at, act):
        self.pieces.append(act.pieces)

    def take_AddressAdded(self, at, act):
        self.assets.append(act.asset)

    def take_IncomingMade(self, at, act):
        self.payees.append(act.address)

    def take_QuoteMade(self, at, act):
        self.prices.append(act)

    def take_GrantAsked(self, at, act):
        limits = next((item.limits for item in act.items if item.type == "outgoing-payment"), None)
        self.caps.append(limits)

    def take_OutgoingMade(self, at, act):
        self.make(at, act.grant, self.prices[act.quote - 1])

    def take_OutgoingDirect(self, at, act):
        self.make(at, act.grant, act)

    def make(self, at, grant, price):
        limits, repetition = self.caps[grant - 1], 0
        if limits is not None and limits.interval is not None:
            interval = read_interval(limits.interval)
            repetition = interval.place_of(at)
            self.hold(repetition not in ("before", "after"), "a payment lies in a repetition")
            begins, ends = interval.start_of(repetition), interval.start_of(repetition + 1)
            self.hold(begins <= at and (ends is None or at < ends), "the moment lies in its repetition")
        self.hold(price.debit == price.source + price.fee and price.debit <= TOP, "the terms are a price")
        self.hold(price.receive == price.source * price.num // price.den, "the terms are a price")
        pieces = self.pieces[self.assets[price.address - 1] - 1]
        self.payments.append(Told(grant, price, self.payees[price.incoming - 1], pieces, repetition))

    def take_OutgoingFunded(self, at, act):
        self.steps_once(act)
        payment = self.payments[act.payment - 1]
        payment.is_running = True
        self.running.setdefault(payment.payer, set()).add(payment)

    def take_OutgoingSent(self, at, act):
        self.steps_once(act)

    def take_OutgoingCompleted(self, at, act):
        self.steps_once(act)
        self.end(act)

    def take_OutgoingFailed(self, at, act):
        self.steps_once(act)
        self.payments[act.payment - 1].has_failed = True
        self.end(act)

    def end(self, act):
        payment = self.payments[act.payment - 1]
        payment.is_running = False
        self.running.get(payment.payer, set()).discard(payment)

    # ---- the laws

    def steps_once(self, act):
        self.hold((act.payment, act.step) not in self.steps, "no two acts take one step of a payment")
        self.steps.add((act.payment, act.step))

    def asset_of(self, account):
        return self.assets[account[1] - 1] if account[0] == "wallet" else account[1]

    def sums_to_zero(self, movements):
        came = {}
        for account, value in movements:
            asset = self.asset_of(account)
            came[asset] = came.get(asset, 0) + value
            self.sums[account] = self.sums.get(account, 0) + value
        self.hold(not any(came.values()), "assets sum to zero")

    def debits_and_delivers(self, number, is_last, movements):
        payment = self.payments[number - 1]
        price = payment.price
        payment.pieces_sent += 1
        lost = sum(-value for account, value in movements if value < 0 and account == ("wallet", payment.payer))
        brought = sum(value for account, value in movements if value > 0 and account == ("wallet", payment.payee))
        payment.lost, payment.brought = payment.lost + lost, payment.brought + brought
        sent = payment.sent()
        self.hold(payment.lost == sent + price.fee * sent // price.source, "the payer lost what was sent and the fee's share")
        self.hold(payment.brought == sent * price.num // price.den, "the payee got the floor of the rate")
        self.hold((sent == price.source) == is_last, "the last piece completes")
        received = self.received[price.incoming] = self.received.get(price.incoming, 0) + brought
        self.hold(received < 2 * TOP, "what is received is below twice the top")

    def spent(self, grant, repetition):
        cap = self.caps[grant - 1].cap
        return sum(payment.weight(cap.of_debit) for payment in self.payments
                   if payment.grant == grant and payment.repetition == repetition)

    def keeps_cap(self, payment):
        limits = self.caps[payment.grant - 1]
        if limits is not None and limits.cap is not None:
            self.hold(self.spent(payment.grant, payment.repetition) <= limits.cap.value, "spending is capped")

    def held(self, account):
        running = self.running.get(account[1], ()) if account[0] == "wallet" else ()
        return sum(payment.price.debit - payment.lost for payment in running)

    def is_covered_below_top(self, account):
        total = self.sums.get(account, 0)
        if account[0] == "outside":
            self.hold(0 <= -total <= TOP, "no total passes the top")
        else:
            self.hold(total >= self.held(account) >= 0, "no account is overdrawn")


class CheckedWallet(Wallet):
    """A wallet that looks at the laws behind every act, and whether its sums are those of the laws."""

    def __init__(self, *rule):
        super().__init__(*rule)
        self.laws = Laws()

    def add(self, at, act):
        super().add(at, act)
        self.laws.take(self.entries[-1], self.movements[-1])
        for account, _ in self.movements[-1]:
            self.laws.hold(self.posted_on(account) == self.laws.sums[account], "posted is a sum")
            self.laws.hold(self.held_on(account) == self.laws.held(account), "held is a sum")
