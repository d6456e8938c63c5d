"""Legal histories: each act is what a wallet answers to the one task that the act spells. Part of scripts/model.py.

The fee of a recorded price is taken from its act, so the fee rule is not asked.
"""
import json

from model import Wallet
from model_forms import LAST, id_text, print_moment
from model_http import NOBODY, Who


def is_legal(entries):
    """Whether each of the entries may follow those before it."""
    return legal_part(entries) == len(entries)


def legal_part(entries):
    """How many of the entries, from the first one on, may each follow those before it."""
    wallet = Wallet()
    for place, entry in enumerate(entries):
        if not may_follow(wallet, entry):
            return place
    return len(entries)


def may_follow(wallet, entry):
    """Whether the entry may follow the wallet's history; where it may, the wallet has it at its end."""
    count = len(wallet.entries)
    wallet.fee_rule = lambda amount: getattr(entry.act, "fee", 0)
    if not wallet.last() <= entry.at <= LAST or getattr(entry.act, "fee", 0) > base_of(entry.act):
        return False
    try:
        play(wallet, entry, *spelled(wallet, entry.act))
    except (IndexError, AttributeError):  # a row that it names is not there
        return False
    return wallet.entries[count:] == [entry] and type(wallet.entries[-1].act) is type(entry.act)


def base_of(act):
    """The amount on which the rule was asked for the fee that the act records."""
    of_debit = getattr(act, "mode", "debit") == "debit"
    return getattr(act, "debit" if of_debit else "source", 0)


def play(wallet, entry, kind, *rest):
    if kind == "ask":
        wallet.ask(entry.at, getattr(entry.act, "word", bytes(16)), *rest)
    else:
        wallet.act(entry.at, (kind, *rest))


def spelled(wallet, act):
    """The task that an act spells: ("ask", method, target, body, who), or a step, an expiry or an attempt."""
    return globals()["spelled_" + type(act).__name__](wallet, act)


def asked(method, target, body=b"", who=NOBODY):
    return "ask", method, target, body, who


def row(rows, number):
    """A row that is there; numbers begin at 1."""
    if number < 1:
        raise IndexError
    return rows[number - 1]


def amount(wallet, asset, value):
    row(wallet.assets, asset)
    return wallet.amount_shown(asset, value)


def asset_name(wallet, asset):
    row(wallet.assets, asset)
    return wallet.asset_shown(asset)


def address_url(wallet, number):
    row(wallet.addresses, number)
    return wallet.address_url(number)


def with_token(wallet, number):
    grant = row(wallet.grants, number)
    return Who(grant.client, True, grant.access)


def with_continuation(wallet, number):
    grant = row(wallet.grants, number)
    return Who(grant.client, True, grant.continuation)


def spelled_OriginSet(wallet, act):
    return asked("POST", "/admin/origin", {"origin": act.origin})


def spelled_AssetAdded(wallet, act):
    return asked("POST", "/admin/assets", {"assetCode": act.code, "assetScale": act.scale, "pieces": act.pieces})


def spelled_AddressAdded(wallet, act):
    return asked("POST", "/admin/wallet-addresses",
                 dict(asset_name(wallet, act.asset), path=act.path, publicName=act.name))


def spelled_transfer(way, wallet, act):
    kind, number = act.account
    asset = number if kind != "wallet" else row(wallet.addresses, number).asset
    name = address_url(wallet, number) if kind == "wallet" else kind
    return asked("POST", "/admin/" + way, {"transferId": act.transfer, "account": name,
                                           "amount": amount(wallet, asset, act.value)})


def spelled_Deposited(wallet, act):
    return spelled_transfer("deposits", wallet, act)


def spelled_Withdrawn(wallet, act):
    return spelled_transfer("withdrawals", wallet, act)


def spelled_RateSet(wallet, act):
    return asked("POST", "/admin/rates", {"from": asset_name(wallet, act.source), "to": asset_name(wallet, act.target),
                                          "num": str(act.num), "den": str(act.den)})


def with_metadata(body, act):
    return body if act.metadata is None else dict(body, metadata=json.loads(act.metadata))


def spelled_IncomingMade(wallet, act):
    asset, body = row(wallet.addresses, act.address).asset, {"walletAddress": address_url(wallet, act.address)}
    if act.amount is not None:
        body["incomingAmount"] = amount(wallet, asset, act.amount)
    body["expiresAt"] = print_moment(act.expiry)
    return asked("POST", "/incoming-payments", with_metadata(body, act), with_token(wallet, act.grant))


def spelled_IncomingCompleted(wallet, act):
    target = "/incoming-payments/%s/complete" % id_text("incoming", act.incoming)
    return asked("POST", target, b"", with_token(wallet, act.grant))


def spelled_IncomingExpired(wallet, act):
    row(wallet.incomings, act.incoming)
    return "expire", act.incoming


def spelled_QuoteMade(wallet, act):
    incoming = row(wallet.incomings, act.incoming)
    body = {"walletAddress": address_url(wallet, act.address), "receiver": wallet.incoming_url(act.incoming),
            "method": "ilp"}
    if act.mode == "debit":
        body["debitAmount"] = amount(wallet, row(wallet.addresses, act.address).asset, act.asked)
    if act.mode == "receive":
        body["receiveAmount"] = amount(wallet, row(wallet.addresses, incoming.address).asset, act.asked)
    return asked("POST", "/quotes", body, with_token(wallet, act.grant))


def spelled_GrantAsked(wallet, act):
    body = {"access_token": {"access": [item_spelled(wallet, item) for item in act.items]}, "client": act.client}
    if any(item.type == "outgoing-payment" for item in act.items):
        body["interact"] = {"start": ["redirect"]}
        if act.finish is not None:
            body["interact"]["finish"] = {"method": "redirect", "uri": act.finish.uri, "nonce": act.finish.nonce}
    return asked("POST", "/grant", body, Who(act.client, True, None))


def item_spelled(wallet, item):
    if item.identifier is not None:
        address_url(wallet, item.identifier)
    if item.limits is not None and item.limits.cap is not None:
        asset_name(wallet, item.limits.cap.asset)
    return wallet.item_shown(item)


def spelled_GrantAccepted(wallet, act):
    return asked("POST", "/admin/interactions/%s/accept" % id_text("grant", act.grant))


def spelled_GrantRejected(wallet, act):
    return asked("POST", "/admin/interactions/%s/reject" % id_text("grant", act.grant))


def spelled_GrantPolled(wallet, act):
    return asked("POST", "/continue/" + id_text("grant", act.grant), b"", with_continuation(wallet, act.grant))


def spelled_GrantContinued(wallet, act):
    grant = row(wallet.grants, act.grant)
    body = b"" if grant.finish is None or grant.reference is None else {"interact_ref": grant.reference}
    return asked("POST", "/continue/" + id_text("grant", act.grant), body, with_continuation(wallet, act.grant))


def spelled_GrantCancelled(wallet, act):
    return asked("DELETE", "/continue/" + id_text("grant", act.grant), b"", with_continuation(wallet, act.grant))


def spelled_TokenRotated(wallet, act):
    return asked("POST", "/token/" + id_text("grant", act.grant), b"", with_token(wallet, act.grant))


def spelled_TokenRevoked(wallet, act):
    return asked("DELETE", "/token/" + id_text("grant", act.grant), b"", with_token(wallet, act.grant))


def spelled_OutgoingMade(wallet, act):
    quote = row(wallet.quotes, act.quote)
    body = {"walletAddress": wallet.address_url(quote.address), "quoteId": wallet.quote_url(act.quote)}
    return asked("POST", "/outgoing-payments", with_metadata(body, act), with_token(wallet, act.grant))


def spelled_OutgoingDirect(wallet, act):
    asset = row(wallet.addresses, act.address).asset
    body = {"walletAddress": wallet.address_url(act.address), "incomingPayment": wallet.incoming_url(act.incoming),
            "debitAmount": amount(wallet, asset, act.debit)}
    return asked("POST", "/outgoing-payments", with_metadata(body, act), with_token(wallet, act.grant))


def spelled_step(wallet, act):
    row(wallet.payments, act.payment)
    return "step", act.payment, act.step


spelled_OutgoingFunded = spelled_OutgoingSent = spelled_OutgoingCompleted = spelled_step


def spelled_OutgoingFailed(wallet, act):
    if act.reason == "cancelled":
        return asked("POST", "/admin/outgoing-payments/%s/cancel" % id_text("outgoing", act.payment))
    return spelled_step(wallet, act)


def spelled_Attempted(wallet, act):
    row(wallet.events, act.event)
    return "attempt", act.event, act.outcome
