"""What the tests of the model and its random player share: who plays, and requests by short names. Part of
scripts/model.py."""
import json

from model_http import NOBODY, Who
from model_laws import CheckedWallet

T0 = 1709294400000  # 2024-03-01T12:00:00Z
ORIGIN = "https://wallet.example"
SHOP = ORIGIN + "/shop"


def amount(code, scale, value):
    return {"assetCode": code, "assetScale": scale, "value": str(value)}


def usd(value):
    return amount("USD", 2, value)


def row_url(rows, number):
    kind = {"incoming-payments": 1, "quotes": 2, "outgoing-payments": 3}[rows]
    return "%s/%s/%s" % (ORIGIN, rows, row_id(kind, number))


def row_id(kind, number):
    return "%08x-0000-8000-8000-%012x" % (kind, number)


class Play:
    """A wallet whose laws are looked at behind every act, and a clock that is put on. Word k is sixteen bytes of k."""

    def __init__(self, *rule):
        self.wallet, self.now, self.turn = CheckedWallet(*rule), T0, 0

    def __getattr__(self, name):
        return getattr(self.wallet, name)

    def send(self, method, target, body=b"", who=NOBODY):
        word = bytes([self.turn % 256]) * 16
        self.turn += 1
        return self.wallet.ask(self.now, word, method, target, body, who)

    def post(self, target, body=b"", who=NOBODY):
        return self.send("POST", target, body, who)

    def get(self, target, who=NOBODY):
        return self.send("GET", target, b"", who)

    # ---- a provider sets up

    def add_asset(self, code, scale, pieces=1):
        return self.post("/admin/assets", {"assetCode": code, "assetScale": scale, "pieces": pieces})

    def add_address(self, path, code="USD", scale=2):
        return self.post("/admin/wallet-addresses", {"path": path, "assetCode": code, "assetScale": scale})

    def transfer(self, way, identifier, account, moved):
        return self.post("/admin/" + way, {"transferId": identifier, "account": account, "amount": moved})

    def deposit(self, identifier, account, moved):
        return self.transfer("deposits", identifier, account, moved)

    def set_rate(self, source, target, num, den):
        names = [{"assetCode": code, "assetScale": scale} for code, scale in (source, target)]
        return self.post("/admin/rates", {"from": names[0], "to": names[1], "num": str(num), "den": str(den)})

    # ---- a client asks

    def asks(self, items, client=SHOP, **more):
        """The reply to a request for a grant."""
        body = dict({"access_token": {"access": items}, "client": client}, **more)
        return self.post("/grant", body, Who(client, True, None))

    def granted(self, items, client=SHOP):
        """One who has a token for the items: they are asked for, accepted and continued."""
        reply = self.asks(items, client, interact={"start": ["redirect"], "finish": {
            "method": "redirect", "uri": "https://shop.example/done", "nonce": "n"}})
        if "access_token" not in reply.body:
            reply = self.finish(reply, client)
        return Who(client, True, reply.body["access_token"]["value"])

    def finish(self, reply, client=SHOP):
        """The reply to a continuation, behind the provider's acceptance."""
        uri, token = reply.body["continue"]["uri"][len(ORIGIN):], reply.body["continue"]["access_token"]["value"]
        redirect = self.post("/admin/interactions/%s/accept" % uri.split("/")[-1]).body["redirect"]
        return self.post(uri, {"interact_ref": redirect.split("interact_ref=")[1]}, Who(client, True, token))

    def incoming(self, who, address, moved=None, **more):
        body = dict({"walletAddress": ORIGIN + address}, **more)
        return self.post("/incoming-payments", body if moved is None else dict(body, incomingAmount=moved), who)

    def quote(self, who, address, incoming, **more):
        body = {"walletAddress": ORIGIN + address, "receiver": row_url("incoming-payments", incoming), "method": "ilp"}
        return self.post("/quotes", dict(body, **more), who)

    def pay(self, who, address, quote, **more):
        body = {"walletAddress": ORIGIN + address, "quoteId": row_url("quotes", quote)}
        return self.post("/outgoing-payments", dict(body, **more), who)

    def pay_directly(self, who, address, incoming, debit, **more):
        body = {"walletAddress": ORIGIN + address, "incomingPayment": row_url("incoming-payments", incoming)}
        return self.post("/outgoing-payments", dict(body, debitAmount=debit, **more), who)


def item(kind, *actions, **more):
    return dict({"type": kind, "actions": list(actions)}, **more)


def paying(address, *actions, **limits):
    """An item that pays from an address, with limits where some are given."""
    found = item("outgoing-payment", *(actions or ("create", "read")), identifier=ORIGIN + address)
    return dict(found, limits=limits) if limits else found


def error(code, **members):
    """The body of a refusal."""
    return json.dumps({"error": dict(members, code=code)}, sort_keys=True, separators=(",", ":"))
