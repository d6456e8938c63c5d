"""What the tests of the model share: what is looked at in a reply, and the purchase. Part of scripts/model.py."""
import os
import re
import unittest

from model_http import Who
from model_play import ORIGIN, SHOP, T0, Play, error, item, row_id, row_url, usd

TOP = os.path.join(os.path.dirname(os.path.abspath(__file__)), "..")
PROVIDER, SHOPPER = Who(None, False, None), Who(SHOP, True, None)
ALICE_PAYS = {"access_token": {"access": [{"type": "outgoing-payment", "actions": ["create", "read"],
                                           "identifier": ORIGIN + "/alice", "limits": {
                                               "debitAmount": {"assetCode": "USD", "assetScale": 2, "value": "5000"},
                                               "interval": "R12/2024-03-01T00:00:00Z/P1M"}}]},
              "client": SHOP, "interact": {"start": ["redirect"], "finish": {
                  "method": "redirect", "uri": "https://shop.example/done", "nonce": "n"}}}
INCOMING_TOKEN = Who(SHOP, True, "a05050505050505050505050505050505-5")
QUOTE_TOKEN = Who(SHOP, True, "a07070707070707070707070707070707-7")
PAYING_TOKEN = Who(SHOP, True, "a0b0b0b0b0b0b0b0b0b0b0b0b0b0b0b0b-11")
EVERYTHING = [item("incoming-payment", "create", "complete", "read", "list"), item("quote", "create", "read")]


def read_file(*parts):
    with open(os.path.join(TOP, *parts), encoding="utf-8") as file:
        return file.read()


def examples(heading):
    """The JSON lines that stand below a heading of docs/API.md that begins so."""
    section = re.search(r"(?ms)^#+ %s.*?(?=^#+ |\Z)" % re.escape(heading), read_file("docs", "API.md")).group()
    return re.findall(r"(?s)```json[^\n]*\n(.*?)\n```", section)


def purchase(metadata=None):
    """The purchase: a wallet, and the reply to each request and each step, in their order."""
    play = Play()
    access = [item("incoming-payment", "create", "complete", "read")]
    paid = {"walletAddress": ORIGIN + "/alice", "quoteId": row_url("quotes", 1)}
    turns = [
        ("POST", "/admin/assets", {"assetCode": "USD", "assetScale": 2, "pieces": 2}, PROVIDER),
        ("POST", "/admin/wallet-addresses",
         {"path": "/alice", "assetCode": "USD", "assetScale": 2, "publicName": "Alice"}, PROVIDER),
        ("POST", "/admin/wallet-addresses", {"path": "/shop", "assetCode": "USD", "assetScale": 2}, PROVIDER),
        ("POST", "/admin/deposits", {"transferId": "dep-1", "account": ORIGIN + "/alice", "amount": usd(10000)}, PROVIDER),
        ("GET", "/alice", b"", PROVIDER),
        ("POST", "/grant", {"access_token": {"access": access}, "client": SHOP}, SHOPPER),
        ("POST", "/incoming-payments", {"walletAddress": SHOP, "incomingAmount": usd(1000),
                                        "expiresAt": "2024-03-01T12:30:00.123Z"}, INCOMING_TOKEN),
        ("POST", "/grant", {"access_token": {"access": [item("quote", "create")]}, "client": SHOP}, SHOPPER),
        ("POST", "/quotes", {"walletAddress": ORIGIN + "/alice", "receiver": row_url("incoming-payments", 1),
                             "method": "ilp"}, QUOTE_TOKEN),
        ("POST", "/grant", ALICE_PAYS, SHOPPER),
        ("POST", "/admin/interactions/%s/accept" % row_id(4, 3), b"", PROVIDER),
        ("POST", "/continue/" + row_id(4, 3), {"interact_ref": "i0a0a0a0a0a0a0a0a0a0a0a0a0a0a0a0a-10"},
         Who(SHOP, True, "c09090909090909090909090909090909-9")),
        ("POST", "/outgoing-payments", paid if metadata is None else dict(paid, metadata=metadata), PAYING_TOKEN),
    ] + [("GET", "/outgoing-payments/" + row_id(3, 1), b"", PAYING_TOKEN)] * 3
    replies = []
    for turn, request in enumerate(turns):
        play.now = T0 + 1000 * turn
        replies.append(play.send(*request))
        for task in play.work(play.now, 0)[0]:
            replies.append(play.act(play.now, task))
    return play, replies


class Checks(unittest.TestCase):
    maxDiff = None

    def says(self, reply, status, text):
        self.assertEqual((reply.status, reply.text()), (status, text))

    def refuses(self, reply, status, code, **members):
        self.says(reply, status, error(code, **members))

    def shows(self, reply, status, **members):
        self.assertEqual(reply.status, status, reply.text())
        self.assertEqual({name: reply.body.get(name) for name in members}, members)

    def balance(self, play, address, posted, available):
        self.shows(play.get("/admin/wallet-addresses/" + row_id(6, address)), 200, posted=posted, available=available)


def ready(pieces=1, *rule):
    """A wallet with USD, its addresses /alice and /shop, and 10000 on the first."""
    play = Play(*rule)
    play.add_asset("USD", 2, pieces)
    play.add_address("/alice")
    play.add_address("/shop")
    play.deposit("dep-1", ORIGIN + "/alice", usd(10000))
    return play
