"""A model of the whole plain wallet, written without the code and its definitions. It shares nothing with the crates.

`Wallet` has a history, a list of acts (model_history.py), and answers requests on the 28 routes, steps of payments,
expiries and attempts of webhooks. A refusal changes nothing; any other answer adds at most one act. Moments are
milliseconds since 1970, values whole numbers of the smallest unit.

    wallet = Wallet()
    wallet.ask(1709294400000, bytes(16), "POST", "/admin/assets", {"assetCode": "USD", "assetScale": 2}).text()
"""
import base64
import hashlib
from collections import namedtuple

from model_forms import (RATE_TOP, TOP, floor_mul, id_text, is_origin, is_path, is_visible, least_source, print_moment,
                         read_address_name, read_digits, read_id, read_json, read_metadata, read_moment,
                         read_row_name, scaled)
from model_history import (AddressAdded, AssetAdded, Attempted, Cap, Deposited, GrantAccepted, GrantAsked,
                           GrantCancelled, GrantContinued, GrantPolled, GrantRejected, History, IncomingCompleted,
                           IncomingExpired, IncomingMade, Item, Limits, OriginSet, OutgoingCompleted, OutgoingDirect,
                           OutgoingFailed, OutgoingFunded, OutgoingMade, OutgoingSent, QuoteMade, RateSet, TokenRevoked,
                           TokenRotated, Withdrawn, later)
from model_http import NOBODY, Reply, body_data, message_data
from model_requests import (ACTIONS, Asked, NoMethod, Refused, access_items, amount, asset_code, asset_name, asset_scale,
                            find_route, interaction, read_query, refuse_if, text, text_of, text_with, whole)

INCOMING_LIFE = 2592000000
LEAST_WAIT = 5000

Price = namedtuple("Price", "debit source fee receive num den")
# What the rules of access 6 to 9 look at; None where it is not there.
Looked = namedtuple("Looked", "receiver payer_asset payee_asset debit receive")


def one_percent(amount):
    """The fee rule of the program: a hundredth, rounded up."""
    return -(-amount // 100)


def deny_if(condition, rule, **members):
    refuse_if(condition, 403, "access_denied", rule=rule, **members)


def interaction_hash(*parts):
    """The hash of RFC 9635, section 4.2.3: the client's nonce, the server's, the reference and the grant endpoint."""
    digest = hashlib.sha256("\n".join(parts).encode()).digest()
    return base64.urlsafe_b64encode(digest).decode().rstrip("=")


def with_metadata(shown, metadata):
    return shown if metadata is None else dict(shown, metadata=read_json(metadata.encode()))


class Wallet(History):
    """The plain wallet, with a fee rule: the fee on an amount."""

    def __init__(self, fee_rule=one_percent):
        super().__init__()
        self.fee_rule = fee_rule

    def ask(self, clock, word, method, target, body=b"", who=NOBODY):
        """The reply to a request at a moment of the clock, with the word that was drawn for it."""
        body = body_data(body)
        path, _, query = target.partition("?")
        try:
            name, segments, has_members = find_route(method, path)
            is_grant = path.split("/")[1] in ("grant", "continue", "token")
            asked = Asked(self.moment(clock), word, who, segments, read_query(query), is_grant)
            if has_members and not (name == "continue_grant" and body == b""):
                asked.read_body(body)
            status, shown = getattr(self, "answer_" + name)(asked)
            return Reply(status, shown, None, self.origin)
        except Refused as refused:
            return Reply(refused.status, {"error": refused.members}, None, self.origin)
        except NoMethod as other:
            return Reply(405, {"error": {"code": "method_not_allowed"}}, str(other), self.origin)

    # ---- names

    def own_url(self, *parts):
        return "/".join((self.origin,) + parts)

    def address_url(self, number):
        return self.origin + self.addresses[number - 1].path

    def incoming_url(self, number):
        return self.own_url("incoming-payments", id_text("incoming", number))

    def quote_url(self, number):
        return self.own_url("quotes", id_text("quote", number))

    def outgoing_url(self, number):
        return self.own_url("outgoing-payments", id_text("outgoing", number))

    def address_named(self, name):
        found = read_address_name(name)
        return self.address_numbers.get(found[1]) if found and found[0] == self.origin else None

    def row_named(self, kind, name):
        found = read_row_name(kind, name)
        rows = {"incoming": self.incomings, "quote": self.quotes}[kind]
        return found[1] if found and found[0] == self.origin and found[1] <= len(rows) else None

    def row_of_path(self, kind, rows, segment):
        number = read_id(kind, segment)
        return number if number is not None and number <= len(rows) else None

    def asset_named(self, name):
        return self.asset_numbers.get((name[0], name[1]))

    def asset_shown(self, number):
        return {"assetCode": self.assets[number - 1].code, "assetScale": self.assets[number - 1].scale}

    def amount_shown(self, asset, value):
        return dict(self.asset_shown(asset), value=str(value))

    # ---- the provider's routes

    def answer_set_origin(self, asked):
        origin = asked.member("origin", text_with(is_origin))
        refuse_if(self.origin_was_set or self.addresses, 409, "origin_fixed")
        self.add(asked.at, OriginSet(origin))
        return 200, {"origin": origin}

    def answer_add_asset(self, asked):
        code, scale = asked.member("assetCode", asset_code), asked.member("assetScale", asset_scale)
        pieces = asked.optional("pieces", whole(1, 64), 1)
        refuse_if(self.asset_named((code, scale)), 409, "already_exists")
        self.add(asked.at, AssetAdded(code, scale, pieces))
        return 201, dict(self.asset_shown(len(self.assets)), pieces=pieces)

    def answer_show_asset(self, asked):
        code, scale = asked.segments[0], read_digits(asked.segments[1], 0, 18)
        asset = self.asset_named((code, scale))
        refuse_if(asset is None, 404, "not_found")
        return 200, dict(self.asset_shown(asset), pieces=self.assets[asset - 1].pieces, total=str(self.total(asset)),
                         fees=str(self.posted_on(("fees", asset))), pool=str(self.posted_on(("pool", asset))))

    def answer_add_address(self, asked):
        path = asked.member("path", text_with(is_path))
        name = asked.member("assetCode", asset_code), asked.member("assetScale", asset_scale)
        public = asked.optional("publicName", text_with(lambda value: len(value.encode()) <= 128))
        asset = self.asset_named(name)
        refuse_if(asset is None, 404, "not_found")
        refuse_if(path in self.address_numbers, 409, "already_exists")
        self.add(asked.at, AddressAdded(path, asset, public))
        number = len(self.addresses)
        return 201, dict(self.address_names(number), id=id_text("address", number), url=self.address_url(number))

    def address_names(self, number):
        address = self.addresses[number - 1]
        shown = self.asset_shown(address.asset)
        return shown if address.name is None else dict(shown, publicName=address.name)

    def answer_show_balance(self, asked):
        number = self.row_of_path("address", self.addresses, asked.segments[0])
        refuse_if(number is None, 404, "not_found")
        account = "wallet", number
        return 200, {"available": str(self.available_on(account)), "id": id_text("address", number),
                     "posted": str(self.posted_on(account)), "url": self.address_url(number)}

    def answer_deposit(self, asked):
        return self.transfer(asked, Deposited)

    def answer_withdraw(self, asked):
        return self.transfer(asked, Withdrawn)

    def transfer(self, asked, kind):
        identifier = asked.member("transferId", text_with(lambda value: is_visible(value, 1, 64)))
        name, moved = asked.member("account", text), asked.member("amount", amount)
        asset, account = self.asset_named(moved), self.account_named(name, moved, kind)
        refuse_if(asset is None or account is None, 404, "not_found")
        act, before = kind(identifier, account, moved.value), self.transfers.get(identifier)
        is_repeat = before == act and type(before) is kind and self.asset_of(account) == asset
        refuse_if(before is not None and not is_repeat, 409, "transfer_id_used")
        if not is_repeat:
            refuse_if(moved.value == 0, 400, "zero_amount")
            refuse_if(self.asset_of(account) != asset, 400, "asset_mismatch")
            total, available = self.total(asset), self.available_on(account)
            refuse_if(kind is Deposited and total + moved.value > TOP, 409, "asset_full", total=str(total))
            refuse_if(kind is Withdrawn and available < moved.value, 409, "short", available=str(available))
            self.add(asked.at, act)
        shown = self.address_url(account[1]) if account[0] == "wallet" else account[0]
        return 201, {"account": shown, "amount": self.amount_shown(asset, moved.value), "transferId": identifier}

    def account_named(self, name, moved, kind):
        if name == "pool" or (name == "fees" and kind is Withdrawn):
            asset = self.asset_named(moved)
            return asset and (name, asset)
        number = self.address_named(name)
        return number and ("wallet", number)

    def answer_set_rate(self, asked):
        names = asked.member("from", asset_name), asked.member("to", asset_name)
        num, den = (asked.member(name, text_of(lambda value: read_digits(value, 1, RATE_TOP))) for name in ("num", "den"))
        source, target = map(self.asset_named, names)
        refuse_if(source is None or target is None, 404, "not_found")
        refuse_if(source == target, 400, "same_asset")
        self.add(asked.at, RateSet(source, target, num, den))
        return 200, {"den": str(den), "from": self.asset_shown(source), "num": str(num), "to": self.asset_shown(target)}

    def answer_accept(self, asked):
        return self.decide(asked, GrantAccepted)

    def answer_reject(self, asked):
        return self.decide(asked, GrantRejected)

    def decide(self, asked, kind):
        number = self.row_of_path("grant", self.grants, asked.segments[0])
        refuse_if(number is None, 404, "not_found")
        grant = self.grants[number - 1]
        refuse_if(grant.state != "pending", 409, "not_pending")
        self.add(asked.at, kind(number, asked.word))
        if grant.finish is None:
            return 200, {}
        hashed = interaction_hash(grant.finish.nonce, grant.nonce, grant.reference, self.own_url("grant"))
        uri, mark = grant.finish.uri, "&" if "?" in grant.finish.uri else "?"
        return 200, {"redirect": "%s%shash=%s&interact_ref=%s" % (uri, mark, hashed, grant.reference)}

    def answer_show_progress(self, asked):
        number = self.row_of_path("outgoing", self.payments, asked.segments[0])
        refuse_if(number is None, 404, "not_found")
        return 200, self.progress(number)

    def answer_cancel_payment(self, asked):
        number = self.row_of_path("outgoing", self.payments, asked.segments[0])
        refuse_if(number is None, 404, "not_found")
        payment = self.payments[number - 1]
        refuse_if(payment.has_ended(), 409, "already_ended")
        self.add(asked.at, OutgoingFailed(number, payment.step, "cancelled"))
        return 200, self.progress(number)

    def progress(self, number):
        payment = self.payments[number - 1]
        shown = {"delivered": str(payment.delivered), "fee": str(payment.fee), "id": id_text("outgoing", number),
                 "sent": str(payment.sent), "state": payment.state, "step": payment.step}
        return shown if payment.reason is None else dict(shown, reason=payment.reason)

    def answer_show_address(self, asked):
        number = self.address_numbers.get(asked.segments[0])
        refuse_if(number is None, 404, "not_found")
        return 200, dict(self.address_names(number), authServer=self.own_url("grant"), id=self.address_url(number),
                         resourceServer=self.origin)

    # ---- grants

    def answer_ask_grant(self, asked):
        items, client = asked.member("access_token", access_items), asked.member(
            "client", text_with(lambda value: len(value.encode()) <= 256))
        redirects, finish = asked.optional("interact", interaction, (False, None))
        refuse_if(not asked.who.proved or client != asked.who.client, 401, "invalid_client")
        waits = any(item[0] == "outgoing-payment" for item in items)
        refuse_if(waits and not redirects, 400, "invalid_interaction")
        named = [self.item_named(*item) for item in items]
        refuse_if(None in named, 403, "request_denied")
        self.add(asked.at, GrantAsked(client, tuple(named), finish if waits else None, asked.word))
        number = len(self.grants)
        return 200, self.waiting(number, True) if waits else self.issued(number)

    def item_named(self, kind, actions, identifier, limits):
        """The item with the rows that it names; None where one is not there."""
        address = None if identifier is None else self.address_named(identifier)
        if identifier is not None and address is None:
            return None
        actions = tuple(action for action in ACTIONS[kind] if action in actions)
        if limits is None:
            return Item(kind, actions, address, None)
        receiver, debit, receive, interval = limits
        row = None if receiver is None else self.row_named("incoming", receiver)
        bound = debit or receive
        asset = bound and self.asset_named(bound)
        if (receiver is not None and row is None) or (bound is not None and asset is None):
            return None
        cap = None if bound is None else Cap(debit is not None, asset, bound.value)
        return Item(kind, actions, address, Limits(row, cap, interval))

    def continuation(self, number, **more):
        return dict(more, access_token={"value": self.grants[number - 1].continuation},
                    uri=self.own_url("continue", id_text("grant", number)))

    def waiting(self, number, is_asked):
        shown, grant = {"continue": self.continuation(number, wait=5)}, self.grants[number - 1]
        if is_asked:
            shown["interact"] = {"redirect": self.own_url("interact", id_text("grant", number))}
            if grant.finish is not None:
                shown["interact"]["finish"] = grant.nonce
        return shown

    def issued(self, number):
        return dict(self.token_shown(number), **{"continue": self.continuation(number)})

    def token_shown(self, number):
        grant = self.grants[number - 1]
        return {"access_token": {"access": [self.item_shown(item) for item in grant.items], "expires_in": 600,
                                 "manage": self.own_url("token", id_text("grant", number)), "value": grant.access}}

    def item_shown(self, item):
        shown = {"actions": list(item.actions), "type": item.type}
        if item.identifier is not None:
            shown["identifier"] = self.address_url(item.identifier)
        if item.limits is not None:
            receiver, cap, interval = item.limits
            limits = shown["limits"] = {}
            if receiver is not None:
                limits["receiver"] = self.incoming_url(receiver)
            if cap is not None:
                limits["debitAmount" if cap.of_debit else "receiveAmount"] = self.amount_shown(cap.asset, cap.value)
            if interval is not None:
                limits["interval"] = interval
        return shown

    def grant_of_path(self, asked, code, holds):
        """The number of the client's own grant that is named, of which something holds."""
        refuse_if(not asked.who.proved, 401, "invalid_client")
        number = self.row_of_path("grant", self.grants, asked.segments[0])
        grant = number and self.grants[number - 1]
        refuse_if(grant is None or grant.client != asked.who.client or not holds(grant), 401, code)
        return number

    def answer_continue_grant(self, asked):
        reference = None if asked.members is None else asked.optional("interact_ref", text)
        number = self.grant_of_path(asked, "invalid_continuation", lambda grant: (
            grant.state not in ("cancelled", "issued") and asked.who.token == grant.continuation))
        grant = self.grants[number - 1]
        refuse_if(grant.state == "rejected", 403, "user_denied")
        refuse_if(reference is None and asked.at < grant.told_to_wait + LEAST_WAIT, 400, "too_fast")
        is_wrong = grant.finish is None or reference != grant.reference
        refuse_if(reference is not None and is_wrong, 400, "invalid_interaction")
        if grant.state == "pending":
            self.add(asked.at, GrantPolled(number))
            return 200, self.waiting(number, False)
        refuse_if(reference is None and grant.finish is not None, 400, "invalid_interaction")
        self.add(asked.at, GrantContinued(number, asked.word))
        return 200, self.issued(number)

    def answer_cancel_grant(self, asked):
        number = self.grant_of_path(asked, "invalid_continuation", lambda grant: (
            grant.state != "cancelled" and asked.who.token == grant.continuation))
        self.add(asked.at, GrantCancelled(number))
        return 204, None

    def answer_rotate_token(self, asked):
        number = self.grant_of_path(asked, "invalid_token", lambda grant: grant.is_current(asked.who.token))
        self.add(asked.at, TokenRotated(number, asked.word))
        return 200, self.token_shown(number)

    def answer_revoke_token(self, asked):
        number = self.grant_of_path(asked, "invalid_token", lambda grant: grant.is_current(asked.who.token))
        self.add(asked.at, TokenRevoked(number))
        return 204, None

    # ---- access

    def allowed(self, asked, kind, actions, reach=None, address=None, maker=None):
        """The number of the grant whose live token asks, by the rules 1 to 5. `actions` are those of which one is
        enough, `reach` the `-all` one, `address` and `maker` the address that is looked at and the row's grant."""
        refuse_if(not asked.who.proved, 401, "invalid_client")
        number = self.grant_of_token.get(asked.who.token)
        grant = number and self.grants[number - 1]
        refuse_if(grant is None or not grant.is_live(asked.who.token, asked.at), 401, "invalid_token")
        item = grant.item(kind)
        deny_if(grant.client != asked.who.client, "other_client")
        deny_if(item is None, "no_type")
        deny_if(not set(actions) & set(item.actions), "no_action")
        deny_if(item.identifier is not None and address not in (None, item.identifier), "other_address")
        is_other = maker is not None and self.grants[maker - 1].client != grant.client
        deny_if(is_other and reach not in item.actions, "other_owner")
        return number

    def check_limits(self, number, at, looked):
        """The rules 6 to 9."""
        grant = self.grants[number - 1]
        receiver, cap, interval = grant.limits() or Limits(None, None, None)
        deny_if(receiver not in (None, looked.receiver), "limit_receiver")
        if cap is not None:
            asset = looked.payer_asset if cap.of_debit else looked.payee_asset
            deny_if(asset not in (None, cap.asset), "limit_asset")
        repetition = grant.repetition(at)
        deny_if(repetition in ("before", "after"), "outside_interval")
        value = cap and (looked.debit if cap.of_debit else looked.receive)
        if value is not None:
            spent = self.spent(number, repetition)
            deny_if(spent + value > cap.value, "over_limit", spent=str(spent))

    # ---- incoming payments

    def answer_make_incoming(self, asked):
        name, limit = asked.member("walletAddress", text), asked.optional("incomingAmount", amount)
        expiry = asked.optional("expiresAt", text_of(read_moment), later(asked.at, INCOMING_LIFE))
        metadata = asked.optional("metadata", read_metadata)
        address = self.address_named(name)
        number = self.allowed(asked, "incoming-payment", ["create"], address=address)
        refuse_if(address is None or (limit is not None and self.asset_named(limit) is None), 404, "not_found")
        if limit is not None:
            refuse_if(limit.value == 0, 400, "zero_amount")
            refuse_if(self.asset_named(limit) != self.addresses[address - 1].asset, 400, "asset_mismatch")
        refuse_if(expiry <= asked.at, 400, "expires_in_past")
        self.add(asked.at, IncomingMade(number, address, limit and limit.value, expiry, metadata))
        return 201, self.incoming_shown(len(self.incomings))

    def incoming_shown(self, number):
        row = self.incomings[number - 1]
        asset = self.addresses[row.address - 1].asset
        shown = {"completed": row.is_completed(), "createdAt": print_moment(row.made), "methods": [],
                 "expiresAt": print_moment(row.expiry), "id": self.incoming_url(number),
                 "receivedAmount": self.amount_shown(asset, row.received), "walletAddress": self.address_url(row.address)}
        if row.amount is not None:
            shown["incomingAmount"] = self.amount_shown(asset, row.amount)
        return with_metadata(shown, row.metadata)

    def answer_list_incomings(self, asked):
        return self.list_rows(asked, "incoming", self.incomings_at, self.incomings, self.incoming_shown)

    def list_rows(self, asked, kind, numbers_at, rows, show):
        name = asked.parameter("wallet-address", text)
        first = asked.parameter("first", lambda value: read_digits(value, 1, 100), 20)
        cursor = asked.parameter("cursor", lambda value: read_id(kind, value), 0)
        address = self.address_named(name)
        number = self.allowed(asked, kind + "-payment", ["list", "list-all"], address=address)
        refuse_if(address is None, 404, "not_found")
        client, item = self.grants[number - 1].client, self.grants[number - 1].item(kind + "-payment")
        reached = [n for n in numbers_at.get(address, ())
                   if "list-all" in item.actions or self.grants[rows[n - 1].grant - 1].client == client]
        behind = [n for n in reached if n > cursor]
        page = behind[:first]
        pagination = {"hasNextPage": len(behind) > first, "hasPreviousPage": len(behind) < len(reached)}
        if page:
            pagination.update(startCursor=id_text(kind, page[0]), endCursor=id_text(kind, page[-1]))
        return 200, {"pagination": pagination, "result": [show(n) for n in page]}

    def incoming_of_path(self, asked, actions, reach):
        number = self.row_of_path("incoming", self.incomings, asked.segments[0])
        row = number and self.incomings[number - 1]
        self.allowed(asked, "incoming-payment", actions, reach, row and row.address, row and row.grant)
        refuse_if(number is None, 404, "not_found")
        return number

    def answer_show_incoming(self, asked):
        return 200, self.incoming_shown(self.incoming_of_path(asked, ["read", "read-all"], "read-all"))

    def answer_complete_incoming(self, asked):
        number = self.incoming_of_path(asked, ["complete"], None)
        refuse_if(not self.incomings[number - 1].is_open(asked.at), 409, "already_closed")
        self.add(asked.at, IncomingCompleted(self.grant_of_token[asked.who.token], number))
        return 200, self.incoming_shown(number)

    # ---- quotes

    def price(self, rate, of_debit, value, room):
        """The price of a debit, or of what is to be received."""
        num, den = rate
        if of_debit:
            fee = self.fee_rule(value)
            debit, source = value, value - fee
        else:
            source = least_source(value, num, den)
            fee = self.fee_rule(source) if source <= TOP else 0
            debit = source + fee
        receive = floor_mul(source, num, den)
        refuse_if(max(debit, fee, source, receive) > TOP, 400, "too_large")
        refuse_if(source == 0 or receive == 0, 400, "too_small")
        refuse_if(source > least_source(room, num, den), 409, "over_receiver", room=str(room))
        return Price(debit, source, fee, receive, num, den)

    def answer_make_quote(self, asked):
        names = asked.member("walletAddress", text), asked.member("receiver", text)
        asked.member("method", text_with("ilp".__eq__))
        debit, receive = asked.optional("debitAmount", amount), asked.optional("receiveAmount", amount)
        if debit is not None and receive is not None:
            raise asked.bad("receiveAmount")
        address, incoming = self.address_named(names[0]), self.row_named("incoming", names[1])
        number, given = self.allowed(asked, "quote", ["create"], address=address), debit or receive
        is_strange = given is not None and self.asset_named(given) is None
        refuse_if(address is None or incoming is None or is_strange, 404, "not_found")
        row, payer = self.incomings[incoming - 1], self.addresses[address - 1].asset
        payee = self.addresses[row.address - 1].asset
        refuse_if(not row.is_open(asked.at), 409, "receiver_closed")
        refuse_if(given is None and row.amount is None, 400, "no_amount")
        refuse_if(debit is not None and self.asset_named(debit) != payer, 400, "asset_mismatch")
        refuse_if(receive is not None and self.asset_named(receive) != payee, 400, "asset_mismatch")
        rate = self.rate(payer, payee)
        refuse_if(rate is None, 409, "no_rate")
        value = row.room() if given is None else given.value
        price = self.price(rate, debit is not None, value, row.room())
        mode = "debit" if debit else "receive" if receive else "rest"
        self.add(asked.at, QuoteMade(number, address, incoming, mode, value, *price))
        return 201, self.quote_shown(len(self.quotes))

    def quote_shown(self, number):
        quote = self.quotes[number - 1]
        return {"createdAt": print_moment(quote.made), "expiresAt": print_moment(quote.expiry), "method": "ilp",
                "id": self.quote_url(number), **self.terms_shown(quote)}

    def terms_shown(self, terms):
        payee = self.addresses[self.incomings[terms.incoming - 1].address - 1]
        return {"debitAmount": self.amount_shown(self.addresses[terms.address - 1].asset, terms.debit),
                "receiveAmount": self.amount_shown(payee.asset, terms.receive),
                "receiver": self.incoming_url(terms.incoming), "walletAddress": self.address_url(terms.address)}

    def answer_show_quote(self, asked):
        number = self.row_of_path("quote", self.quotes, asked.segments[0])
        row = number and self.quotes[number - 1]
        self.allowed(asked, "quote", ["read", "read-all"], "read-all", row and row.address, row and row.grant)
        refuse_if(number is None, 404, "not_found")
        return 200, self.quote_shown(number)

    # ---- outgoing payments

    def answer_make_outgoing(self, asked):
        name = asked.member("walletAddress", text)
        quote, incoming = asked.optional("quoteId", text), asked.optional("incomingPayment", text)
        for member, is_bad in (("quoteId", quote is None and incoming is None),
                               ("incomingPayment", quote is not None and incoming is not None),
                               ("debitAmount", asked.has("debitAmount") != (incoming is not None))):
            if is_bad:
                raise asked.bad(member)
        debit, metadata = asked.optional("debitAmount", amount), asked.optional("metadata", read_metadata)
        address = self.address_named(name)
        if quote is not None:
            act = self.from_quote(asked, address, self.row_named("quote", quote), metadata)
        else:
            act = self.without_quote(asked, address, self.row_named("incoming", incoming), debit, metadata)
        self.add(asked.at, act)
        return 201, dict(self.outgoing_shown(len(self.payments)), **self.spent_shown(act.grant, asked.at))

    def from_quote(self, asked, address, quote, metadata):
        row = quote and self.quotes[quote - 1]
        number = self.allowed(asked, "outgoing-payment", ["create"], None, address, row and row.grant)
        if row is not None:
            payer, payee = self.addresses[row.address - 1], self.addresses[self.incomings[row.incoming - 1].address - 1]
            self.check_limits(number, asked.at, Looked(row.incoming, payer.asset, payee.asset, row.debit, row.receive))
        refuse_if(address is None or row is None or row.address != address, 404, "not_found")
        refuse_if(quote in self.paid_quotes, 409, "quote_used")
        refuse_if(asked.at >= row.expiry, 409, "quote_expired")
        return OutgoingMade(number, quote, metadata)

    def without_quote(self, asked, address, incoming, debit, metadata):
        number = self.allowed(asked, "outgoing-payment", ["create"], None, address)
        asset, payer = self.asset_named(debit), address and self.addresses[address - 1].asset
        row = incoming and self.incomings[incoming - 1]
        payee = row and self.addresses[row.address - 1].asset
        rate = row and payer and self.rate(payer, payee)
        if row is not None:
            receive = self.receive_of(rate, debit.value, row.room()) if rate and asset == payer else None
            self.check_limits(number, asked.at, Looked(incoming, payer, payee, payer and debit.value, receive))
        refuse_if(address is None or row is None or asset is None, 404, "not_found")
        refuse_if(not row.is_open(asked.at), 409, "receiver_closed")
        refuse_if(asset != payer, 400, "asset_mismatch")
        refuse_if(rate is None, 409, "no_rate")
        return OutgoingDirect(number, address, incoming, *self.price(rate, True, debit.value, row.room()), metadata)

    def receive_of(self, rate, debit, room):
        """What the payee would receive for a debit; None where it has no price."""
        try:
            return self.price(rate, True, debit, room).receive
        except Refused:
            return None

    def outgoing_shown(self, number):
        payment = self.payments[number - 1]
        payer = self.addresses[payment.payer - 1]
        shown = {"createdAt": print_moment(payment.made), "failed": payment.state == "FAILED",
                 "id": self.outgoing_url(number), "sentAmount": self.amount_shown(payer.asset, payment.sent),
                 **self.terms_shown(payment.terms)}
        if payment.quote is not None:
            shown["quoteId"] = self.quote_url(payment.quote)
        return with_metadata(shown, payment.metadata)

    def spent_shown(self, number, at):
        grant = self.grants[number - 1]
        cap = grant.limits() and grant.limits().cap
        if not cap:
            return {}
        spent = self.spent(number, grant.repetition(at))
        return {"grantSpent%sAmount" % ("Debit" if cap.of_debit else "Receive"): self.amount_shown(cap.asset, spent)}

    def answer_list_outgoings(self, asked):
        return self.list_rows(asked, "outgoing", self.payments_from, self.payments, self.outgoing_shown)

    def answer_show_outgoing(self, asked):
        number = self.row_of_path("outgoing", self.payments, asked.segments[0])
        row = number and self.payments[number - 1]
        self.allowed(asked, "outgoing-payment", ["read", "read-all"], "read-all", row and row.payer, row and row.grant)
        refuse_if(number is None, 404, "not_found")
        return 200, self.outgoing_shown(number)

    def answer_show_monetization(self, asked):
        name = asked.parameter("wallet-address", text)
        page = asked.parameter("page", lambda value: value if 1 <= len(value.encode()) <= 64 else None)
        address = self.address_named(name)
        self.allowed(asked, "outgoing-payment", ["list", "list-all"], address=address)
        refuse_if(address is None, 404, "not_found")
        asset = self.assets[self.addresses[address - 1].asset - 1]
        return 200, {"events": [
            {"amountSent": {"currency": asset.code, "value": scaled(payment.sent, asset.scale)},
             "incomingPayment": self.incoming_url(payment.incoming), "paymentPointer": self.address_url(payment.payee)}
            for payment in self.feed(asked.who.client, address, page)]}

    # ---- steps, expiries, attempts

    def step(self, clock, number, step):
        """One step of a payment, asked for by its number: what became of it."""
        at, payment = self.moment(clock), self.payments[number - 1]
        if step != payment.step:
            return "stale", payment.step
        if payment.has_ended():
            return ("ended",)
        if payment.state == "FUNDING":
            return self.fund(at, number, payment)
        if not self.incomings[payment.incoming - 1].is_open(at):
            self.add(at, OutgoingFailed(number, step, "receiver_closed"))
            return "failed", "receiver_closed"
        source, target = self.addresses[payment.payer - 1].asset, self.addresses[payment.payee - 1].asset
        pool, (_, _, delivered) = self.available_on(("pool", target)), payment.growth()
        if source != target and pool < delivered:
            return "no_liquidity", pool, delivered
        is_last = payment.sent + payment.growth()[0] == payment.terms.source
        self.add(at, (OutgoingCompleted if is_last else OutgoingSent)(number, step))
        return ("completed",) if is_last else ("sent",)

    def fund(self, at, number, payment):
        available = self.available_on(("wallet", payment.payer))
        if at >= payment.terms.expiry:
            self.add(at, OutgoingFailed(number, payment.step, "quote_expired"))
            return "failed", "quote_expired"
        if available < payment.terms.debit:
            return "not_funded", available, payment.terms.debit
        self.add(at, OutgoingFunded(number, payment.step))
        return ("funded",)

    def expire(self, clock, number):
        at = self.moment(clock)
        if not self.incomings[number - 1].is_due(at):
            return ("not_due",)
        self.add(at, IncomingExpired(number))
        return ("noted",)

    def attempt(self, clock, number, outcome):
        """An attempt to tell an event, with the status that its post answered, or 0."""
        at = self.moment(clock)
        if not self.events[number - 1].is_due(at):
            return ("not_due",)
        self.add(at, Attempted(number, outcome))
        return ("noted",)

    def act(self, clock, task):
        """What becomes of a task of a work round."""
        return {"step": self.step, "expire": self.expire, "attempt": self.attempt}[task[0]](clock, *task[1:])

    def work_round(self, clock, cursor=0):
        """All tasks of a work round at the moment of the clock, in their order; the next cursor."""
        tasks, cursor = self.work(self.moment(clock), cursor)
        for task in tasks:
            self.act(clock, task)
        return cursor

    def message(self, number, at, key):
        """The webhook message that tells an event at a moment, signed under the link's secret."""
        event = self.events[number - 1]
        if event.word.startswith("incoming"):
            row = self.incomings[event.row - 1]
            asset = self.addresses[row.address - 1].asset
            data = {"id": self.incoming_url(event.row), "receivedAmount": self.amount_shown(asset, *event.values),
                    "walletAddress": self.address_url(row.address)}
        else:
            payment = self.payments[event.row - 1]
            source, target = self.addresses[payment.payer - 1].asset, self.addresses[payment.payee - 1].asset
            debit, receive, sent = event.values
            data = {"debitAmount": self.amount_shown(source, debit), "id": self.outgoing_url(event.row),
                    "receiveAmount": self.amount_shown(target, receive), "sentAmount": self.amount_shown(source, sent),
                    "walletAddress": self.address_url(payment.payer)}
        return message_data(id_text("event", number), event.word, data, at, key)
