#!/usr/bin/env python3
"""Random tasks for the model of scripts/model.py: requests of a provider and of three clients on every route, steps of
payments, expiries and attempts of webhooks, also such as are refused. The six laws are looked at behind every act, and at
the end whether the history is legal. Prints one line of counts with a digest of all replies, and fails where a route or a
kind of act is missing.

Use: scripts/random_tasks.py [NUMBER] [--seed SEED] [--stream FILE], of 10000 tasks and the seed 1 where they are not given.

With --stream the tasks are requests as `wallet apply` has them: a work round follows each of them, and no webhooks are
posted. FILE has the requests as bytes, FILE.replies the replies, FILE.turns what the clock answered and the word that was
drawn for each request, FILE.audit the summary of the history, and FILE.journal the journal at the end."""
import argparse
import collections
import hashlib
import sys

from model_forms import id_text, print_moment
from model_history import ACTS
from model_http import NOBODY, Who, body_data, request_data
from model_journal import journal
from model_laws import CheckedWallet
from model_legal import legal_part
from model_requests import ACTIONS, ROUTES, NoMethod, Refused, find_route

CLIENTS = ["https://a.example", "https://b.example", "https://c.example/app"]
ASSETS = [("USD", 2, 2), ("EUR", 2, 1), ("JPY", 0, 7), ("ABC0", 6, 64)]
PATHS = ["/alice", "/bob", "/carol/usd", "/dave", "/shop", "/news", "/.well-known/pay", "/a/b/c/d/e/f/g/h"]
INTERVALS = ["R/2024-01-31T00:00:00Z/P1M", "R100000/2024-03-01T00:00:00Z/PT1M", "R/2024-02-29T12:00:00+01:00/P1Y",
             "R/2024-03-01T00:00:00Z/PT1S", "R2/2024-03-02T00:00:00Z/P1D", "R9/2023-01-01T00:00:00Z/P1W"]
PAGES = ["news", "blog", "a page"]
FIRST_MOMENT = 1709294400000  # 2024-03-01T12:00:00Z
LIFE = 600000


class Draws:
    """Numbers that look random, the same for a seed everywhere."""

    def __init__(self, seed):
        self.seed, self.count = str(seed), 0

    def word(self):
        self.count += 1
        return hashlib.sha256(("%s %d" % (self.seed, self.count)).encode()).digest()

    def below(self, limit):
        return int.from_bytes(self.word()[:8], "big") % limit

    def between(self, low, high):
        return low + self.below(high - low + 1)

    def happens(self, percent):
        return self.below(1000) < 10 * percent

    def one_of(self, things):
        return things[self.below(len(things))]

    def recent(self, things):
        """One of the last few, and now and then any."""
        return self.one_of(things if self.happens(10) else things[-5:])

    def some_of(self, things):
        found = [thing for thing in things if self.happens(60)]
        return found or [self.one_of(things)]

    def weighted(self, weights):
        place = self.below(sum(weights.values()))
        for name, weight in weights.items():
            place -= weight
            if place < 0:
                return name
        raise AssertionError


Asked = collections.namedtuple("Asked", "method target body who")


class Known:
    """What a client knows of a grant that it asked for, from the replies alone."""

    def __init__(self, client, items, reply):
        self.client, self.items, self.token, self.since, self.reference, self.is_gone = client, items, None, 0, None, False
        self.target = "/continue/" + reply["continue"]["uri"].split("/continue/")[1]
        self.number = self.target.split("/")[2]
        self.continuation = reply["continue"]["access_token"]["value"]

    def who(self, token):
        return Who(self.client, True, token)


class Player:
    """Makes up tasks, plays them, and keeps from the replies what the next ones need."""

    WEIGHTS = {"origin": 1, "asset": 2, "address": 4, "deposit": 40, "withdrawal": 25, "rate": 20, "show_asset": 10,
               "show_balance": 20, "show_address": 8, "progress": 15, "cancel_payment": 6, "decide": 60, "grant": 60,
               "continue": 80, "cancel_grant": 5, "rotate": 30, "revoke": 4, "incoming": 50, "list_incomings": 15,
               "show_incoming": 15, "complete": 12, "quote": 80, "show_quote": 15, "pay": 130, "pay_directly": 50,
               "list_outgoings": 15, "show_outgoing": 25, "monetization": 20, "strange": 15}
    OTHERS = {"step": 220, "expire": 15, "attempt": 60}

    def __init__(self, seed):
        self.draws, self.wallet, self.clock = Draws(seed), CheckedWallet(), FIRST_MOMENT
        self.assets, self.paths, self.grants, self.transfers = [], [], [], []
        self.incomings, self.quotes, self.payments = [], [], []
        self.digest, self.codes, self.routes = hashlib.sha256(), collections.Counter(), collections.Counter()

    # ---- playing

    def tick(self):
        """The clock goes on by seconds, now and then by more, and seldom back."""
        step = self.draws.weighted({"none": 300, "seconds": 600, "minute": 30, "minutes": 3, "back": 30})
        most = {"none": 0, "seconds": 2000, "minute": 60000, "minutes": 400000, "back": 0}[step]
        self.clock += self.draws.between(0, most) - (1500 if step == "back" else 0)
        if self.draws.below(2500) == 0:
            self.clock += self.draws.between(1, 40) * 86400000

    def play_one(self):
        """One task of any kind: a request, or a step, an expiry or an attempt."""
        self.tick()
        kind = self.draws.weighted({**self.WEIGHTS, **self.OTHERS})
        if kind in self.WEIGHTS:
            self.play_request(self.make(kind), self.draws.word()[:16])
            return
        task = getattr(self, "make_" + kind)()
        if task is not None:
            self.note(repr(self.wallet.act(self.clock, task)).encode())

    def make(self, kind):
        """A request of this kind, or a deposit where there is nothing to ask for yet. The origin comes first, and then
        some addresses."""
        if not self.codes:
            return self.make_origin()
        if len(self.paths) < 4:
            return self.make_address()
        return getattr(self, "make_" + kind)() or self.make_deposit()

    def play_request(self, asked, word):
        before = len(self.wallet.entries)
        reply = self.wallet.ask(self.clock, word, *asked)
        if len(self.wallet.entries) - before > (reply.status < 300):
            sys.exit("a refusal has an act, or a reply has two")
        self.note(reply.data())
        self.codes[reply.body["error"]["code"] if reply.status >= 400 else reply.status] += 1
        try:
            name = find_route(asked.method, asked.target.partition("?")[0])[0]
        except (Refused, NoMethod):
            return reply
        self.routes[name] += 1
        if reply.status == 403 and name == "continue_grant":
            self.learn_cancel_grant(asked, reply.body)
        if reply.status < 300:
            getattr(self, "learn_" + name, lambda asked, body: None)(asked, reply.body)
        return reply

    def note(self, data):
        self.digest.update(b"%d %s\n" % (len(data), data))

    # ---- names

    def url(self, *parts):
        return self.wallet.origin + "".join(parts)

    def address(self):
        path = self.draws.one_of(self.paths) if self.paths and not self.draws.happens(3) else self.draws.one_of(PATHS)
        host = self.wallet.origin.partition("://")[2]
        if path == "/.well-known/pay":
            return self.draws.one_of(["$" + host, "$" + host + "/", self.url(path)])
        return "$" + host + path if self.draws.happens(10) else self.url(path)

    def asset(self):
        return self.draws.one_of(self.assets if self.assets and not self.draws.happens(3) else ASSETS)

    def amount(self, asset, value):
        return {"assetCode": asset[0], "assetScale": asset[1], "value": str(value)}

    def value(self):
        return self.draws.weighted({0: 1, 1: 1, 2: 1, self.draws.between(1, 300): 30, self.draws.between(1, 20000): 30,
                                    self.draws.between(1, 10 ** 18): 1, 10 ** 18: 1})

    def asset_of(self, name):
        number = self.wallet.address_named(name)
        return self.wallet.assets[self.wallet.addresses[number - 1].asset - 1][:2] if number else self.asset()

    # ---- requests of the provider

    def provider(self, method, target, body=b""):
        return Asked(method, target, body, NOBODY)

    def make_origin(self):
        return self.provider("POST", "/admin/origin", {"origin": "https://pay.example"})

    def make_asset(self):
        code, scale, pieces = self.draws.one_of(ASSETS)
        return self.provider("POST", "/admin/assets", {"assetCode": code, "assetScale": scale, "pieces": pieces})

    def learn_add_asset(self, asked, body):
        self.assets.append((body["assetCode"], body["assetScale"], body["pieces"]))

    def make_address(self):
        if len(self.assets) < len(ASSETS) and self.draws.happens(50):
            return self.make_asset()
        path = self.draws.one_of(PATHS)
        code, scale, _ = ASSETS[PATHS.index(path) % 3] if self.draws.happens(80) else self.asset()
        body = {"path": path, "assetCode": code, "assetScale": scale}
        name = {"publicName": self.draws.one_of(["", "Zoë", "A \"name\"\n"])} if self.draws.happens(30) else {}
        return self.provider("POST", "/admin/wallet-addresses", dict(body, **name))

    def learn_add_address(self, asked, body):
        self.paths.append(body["url"][len(self.wallet.origin):])

    def make_deposit(self):
        return self.transfer("deposits", ["pool", "pool", "fees"])

    def make_withdrawal(self):
        return self.transfer("withdrawals", ["pool", "fees", "fees"])

    def transfer(self, way, accounts):
        if self.transfers and self.draws.happens(8):
            body = dict(self.draws.recent(self.transfers))
            if self.draws.happens(30):
                body["amount"] = dict(body["amount"], value=str(self.value()))
        else:
            account = self.draws.one_of(accounts) if self.draws.happens(25) else self.address()
            asset = self.asset() if account in accounts or self.draws.happens(3) else self.asset_of(account)
            value = self.value() * (10 if way == "deposits" and self.draws.happens(80) else 1)
            moved = self.amount(asset, min(value, 10 ** 18))
            body = {"transferId": "t%d" % len(self.transfers), "account": account, "amount": moved}
            self.transfers.append(body)
        return self.provider("POST", "/admin/" + way, body)

    def make_rate(self):
        names = [dict(zip(("assetCode", "assetScale"), self.asset())) for _ in range(2)]
        num, den = self.draws.one_of([(3, 2), (3, 7), (1, 1), (9, 10), (1, 1000), (10 ** 12, 1), (147, 1)])
        return self.provider("POST", "/admin/rates", {"from": names[0], "to": names[1], "num": str(num), "den": str(den)})

    def make_show_asset(self):
        code, scale, _ = self.asset()
        return self.provider("GET", "/admin/assets/%s/%d" % (code, scale))

    def make_show_balance(self):
        return self.provider("GET", "/admin/wallet-addresses/" + id_text("address", self.draws.between(1, 9)))

    def make_show_address(self):
        return self.provider("GET", self.draws.one_of(PATHS))

    def payment_target(self, more=""):
        number = self.draws.recent(self.payments) if self.payments and not self.draws.happens(3) else 99999
        return "/admin/outgoing-payments/%s%s" % (id_text("outgoing", number), more)

    def make_progress(self):
        return self.provider("GET", self.payment_target())

    def make_cancel_payment(self):
        return self.provider("POST", self.payment_target("/cancel"))

    def make_decide(self):
        waiting = [grant for grant in self.grants if grant.token is None and not grant.is_gone and not grant.reference]
        if not waiting and not (self.grants and self.draws.happens(10)):
            return None
        grant = self.draws.recent(waiting or self.grants)
        word = "reject" if self.draws.happens(12) else "accept"
        return self.provider("POST", "/admin/interactions/%s/%s" % (grant.number, word))

    def learn_accept(self, asked, body):
        for grant in self.grants:
            if grant.number == asked.target.split("/")[3][:36]:
                grant.reference = body.get("redirect", "interact_ref=").split("interact_ref=")[1] or "none"

    learn_reject = learn_accept

    # ---- requests of clients for grants

    def make_grant(self):
        client, items = self.draws.one_of(CLIENTS), []
        for kind in self.draws.some_of(list(ACTIONS)):
            actions = list(ACTIONS[kind]) if self.draws.happens(40) else self.draws.some_of(list(ACTIONS[kind]))
            found = {"type": kind, "actions": actions}
            if kind == "outgoing-payment" or self.draws.happens(15):
                found["identifier"] = self.address()
            if kind == "outgoing-payment" and self.draws.happens(60):
                found["limits"] = self.limits(found["identifier"])
            items.append(found)
        body = {"access_token": {"access": items}, "client": client}
        if not self.draws.happens(5):
            body["interact"] = {"start": ["redirect"]}
            if self.draws.happens(75):
                uri = self.draws.one_of(["https://a.example/done", "http://b.example/?x=1"])
                body["interact"]["finish"] = {"method": "redirect", "uri": uri, "nonce": "n%d" % len(self.grants)}
        return Asked("POST", "/grant", body, Who(client, not self.draws.happens(2), None))

    def limits(self, address):
        limits = {}
        if self.incomings and self.draws.happens(10):
            limits["receiver"] = self.url("/incoming-payments/", id_text("incoming", self.draws.recent(self.incomings)))
        if self.draws.happens(80):
            name = "debitAmount" if self.draws.happens(65) else "receiveAmount"
            asset = self.asset_of(address) if self.draws.happens(90) else self.asset()
            limits[name] = self.amount(asset, self.draws.between(1, 30000))
        if self.draws.happens(50):
            limits["interval"] = self.draws.one_of(INTERVALS)
        return limits

    def learn_ask_grant(self, asked, body):
        self.grants.append(Known(asked.who.client, asked.body["access_token"]["access"], body))
        self.learn_token(self.grants[-1], body)

    def learn_token(self, grant, body):
        if "access_token" in body:
            grant.token, grant.since = body["access_token"]["value"], self.clock
        if "continue" in body:
            grant.continuation = body["continue"]["access_token"]["value"]

    def make_continue(self):
        waiting = [grant for grant in self.grants if grant.token is None and not grant.is_gone]
        if not waiting:
            return None
        decided = [grant for grant in waiting if grant.reference]
        grant = self.draws.recent(decided if decided and self.draws.happens(80) else waiting)
        reference = {} if grant.reference in (None, "none") or self.draws.happens(5) else {"interact_ref": grant.reference}
        if self.draws.happens(4):
            reference = {"interact_ref": "wrong"}
        token = "c00-1" if self.draws.happens(2) else grant.continuation
        return Asked("POST", grant.target, reference or b"", grant.who(token))

    def grant_at(self, target):
        return next(grant for grant in self.grants if grant.number == target.split("/")[2][:36])

    def learn_continue_grant(self, asked, body):
        self.learn_token(self.grant_at(asked.target), body)

    learn_rotate_token = learn_continue_grant

    def make_cancel_grant(self):
        grant = self.draws.recent(self.grants) if self.grants else None
        return grant and Asked("DELETE", grant.target, b"", grant.who(grant.continuation))

    def learn_cancel_grant(self, asked, body):
        self.grant_at(asked.target).is_gone = True

    learn_revoke_token = learn_cancel_grant

    def token_task(self, method):
        known = [grant for grant in self.grants if grant.token and not grant.is_gone]
        grant = self.draws.recent(known) if known else None
        return grant and Asked(method, "/token/" + grant.number, b"", grant.who(grant.token))

    def make_rotate(self):
        return self.token_task("POST")

    def make_revoke(self):
        return self.token_task("DELETE")

    # ---- requests of clients for resources

    def client_asks(self, kind, actions, make, client=None):
        """A request by one who may do one of the actions, and perhaps by this client; a token that has grown old is
        rotated first, mostly."""
        known = [grant for grant in self.grants if grant.token and not grant.is_gone and client in (None, grant.client)]
        able = [grant for grant in known for item in grant.items
                if item["type"] == kind and set(actions) & set(item["actions"])]
        if not able:
            return None
        grant = self.draws.recent(able if not self.draws.happens(4) else known)
        if self.clock >= grant.since + LIFE and self.draws.happens(85):
            return Asked("POST", "/token/" + grant.number, b"", grant.who(grant.token))
        who = grant.who(grant.token)
        if self.draws.happens(3):
            who = self.draws.one_of([who._replace(proved=False), who._replace(token=None), NOBODY,
                                     who._replace(client=self.draws.one_of(CLIENTS))])
        item = next((item for item in grant.items if item["type"] == kind), {})
        asked = make(item.get("identifier"))
        return asked and Asked(*asked, who)

    def metadata(self):
        if not self.draws.happens(50):
            return {}
        page = self.draws.one_of(PAGES)
        return {"metadata": self.draws.one_of([{"page": page}, {"page": page, "n": [1, -2, {"é": None}]}, {"page": 1}])}

    def make_incoming(self):
        def make(address):
            name = address if address and self.draws.happens(95) else self.address()
            body = dict({"walletAddress": name}, **self.metadata())
            if self.draws.happens(60):
                body["incomingAmount"] = self.amount(self.asset_of(name) if self.draws.happens(97) else self.asset(),
                                                     self.value())
            if self.draws.happens(40):
                soon = print_moment(self.clock + 1000 * self.draws.between(-5, 600))
                body["expiresAt"] = self.draws.weighted({soon: 95, "1999-12-31t23:59:59.5-05:30": 3, "2024-02-30": 2})
            return "POST", "/incoming-payments", body
        return self.client_asks("incoming-payment", ["create"], make)

    def learn_make_incoming(self, asked, body):
        self.incomings.append(int(body["id"][-12:], 16))

    def list_task(self, kind, numbers):
        def make(address):
            target = "/%s-payments?wallet-address=%s" % (kind, address if address and self.draws.happens(90) else self.address())
            if self.draws.happens(50):
                target += "&first=%d" % self.draws.between(1, 9 if self.draws.happens(95) else 200)
            if numbers and self.draws.happens(40):
                target += "&cursor=" + id_text(kind, self.draws.one_of(numbers))
            return "GET", target.replace(":", "%3A"), b""
        return self.client_asks(kind + "-payment", ["list", "list-all"], make)

    def make_list_incomings(self):
        return self.list_task("incoming", self.incomings)

    def make_list_outgoings(self):
        return self.list_task("outgoing", self.payments)

    def row_task(self, kind, route, rows, numbers, actions, method="GET", more=""):
        number = self.draws.recent(numbers) if numbers and not self.draws.happens(3) else 77777
        target = "/%s/%s%s" % (rows, id_text(route, number), more)
        return self.client_asks(kind, actions, lambda address: (method, target, b""))

    def make_show_incoming(self):
        return self.row_task("incoming-payment", "incoming", "incoming-payments", self.incomings, ["read", "read-all"])

    def make_complete(self):
        return self.row_task("incoming-payment", "incoming", "incoming-payments", self.incomings, ["complete"], "POST",
                             "/complete")

    def make_show_quote(self):
        return self.row_task("quote", "quote", "quotes", [quote[0] for quote in self.quotes],
                             ["read", "read-all"])

    def make_show_outgoing(self):
        return self.row_task("outgoing-payment", "outgoing", "outgoing-payments", self.payments, ["read", "read-all"])

    def make_quote(self):
        if not self.incomings:
            return None
        incoming = self.receiver() if not self.draws.happens(2) else 88888
        payee = self.asset_of_incoming(incoming)

        def make(_):
            payer = self.draws.one_of([grant for grant in self.grants if grant.token] or self.grants)
            names = [item["identifier"] for item in payer.items if item["type"] == "outgoing-payment"]
            name = names[0] if names and self.draws.happens(70) else self.address()
            body = {"walletAddress": name, "receiver": self.url("/incoming-payments/", id_text("incoming", incoming)),
                    "method": "ilp"}
            mode = self.draws.weighted({"debitAmount": 40, "receiveAmount": 30, "none": 30})
            if mode != "none":
                asset = self.asset_of(name) if mode == "debitAmount" else payee
                body[mode] = self.amount(asset if self.draws.happens(97) else self.asset(), self.value())
            return "POST", "/quotes", body
        return self.client_asks("quote", ["create"], make)

    def receiver(self):
        """An incoming payment, mostly one that takes more."""
        taking = sorted(self.wallet.open_incomings)
        return self.draws.recent(taking if taking and self.draws.happens(90) else self.incomings)

    def asset_of_incoming(self, number):
        rows = self.wallet.incomings
        if number > len(rows):
            return self.asset()
        return self.wallet.assets[self.wallet.addresses[rows[number - 1].address - 1].asset - 1][:2]

    def learn_make_quote(self, asked, body):
        self.quotes.append((int(body["id"][-12:], 16), asked.who.client, body["walletAddress"]))

    def make_pay(self):
        def make(address):
            fitting = [quote for quote in self.quotes[-30:] if quote[1] == client and quote[2] == address]
            number, _, name = self.draws.recent(fitting if fitting and self.draws.happens(95) else self.quotes)
            body = {"walletAddress": name, "quoteId": self.url("/quotes/", id_text("quote", number))}
            return "POST", "/outgoing-payments", dict(body, **self.metadata())
        if not self.quotes:
            return None
        client = self.draws.recent(self.quotes)[1] if self.draws.happens(95) else None
        return self.client_asks("outgoing-payment", ["create"], make, client)

    def make_pay_directly(self):
        def make(address):
            name = address if address and self.draws.happens(95) else self.address()
            incoming = self.url("/incoming-payments/", id_text("incoming", self.receiver()))
            asset = self.asset_of(name) if self.draws.happens(97) else self.asset()
            body = {"walletAddress": name, "incomingPayment": incoming, "debitAmount": self.amount(asset, self.value())}
            return "POST", "/outgoing-payments", dict(body, **self.metadata())
        return self.client_asks("outgoing-payment", ["create"], make) if self.incomings else None

    def learn_make_outgoing(self, asked, body):
        self.payments.append(int(body["id"][-12:], 16))

    def make_monetization(self):
        def make(address):
            name = address if address and self.draws.happens(95) else self.address()
            page = self.draws.one_of(PAGES).replace(" ", "+")
            return "GET", "/monetization?page=%s&wallet-address=%s" % (page, name), b""
        return self.client_asks("outgoing-payment", ["list", "list-all"], make)

    # ---- requests that are no good

    def make_strange(self):
        """Another request with something changed in it."""
        asked = self.make(self.draws.one_of([kind for kind in self.WEIGHTS if kind != "strange"]))
        change = self.draws.below(5)
        if isinstance(asked.body, dict) and change < 4:
            name = self.draws.one_of(sorted(asked.body))
            if change == 3:
                return asked._replace(body=b'{"' + name.encode() + b'":')
            rest = {key: value for key, value in asked.body.items() if key != name}
            return asked._replace(body=rest if change == 0 else dict(rest, **{name: [None, 7][change - 1]}))
        if change == 4:
            return asked._replace(method=self.draws.one_of(["GET", "POST", "PUT", "DELETE"]))
        return asked._replace(target=asked.target + self.draws.one_of(["/", "x", "?a=%", "//"]))

    # ---- steps, expiries, attempts

    def make_step(self):
        if not self.payments:
            return None
        running = sorted(self.wallet.running)
        number = self.draws.one_of(running) if running and self.draws.happens(92) else self.draws.recent(self.payments)
        step = self.wallet.payments[number - 1].step
        return "step", number, self.draws.between(0, step + 1) if self.draws.happens(5) else step

    def make_expire(self):
        due = [number for number in self.wallet.open_incomings if self.wallet.incomings[number - 1].is_due(self.clock)]
        known = due if due and self.draws.happens(80) else self.incomings
        return ("expire", self.draws.one_of(known)) if known else None

    def make_attempt(self):
        due = self.wallet.hooks_due(self.clock)
        if due and self.draws.happens(85):
            return "attempt", self.draws.one_of(due), self.draws.weighted({200: 60, 204: 5, 500: 20, 0: 20, 404: 5})
        return ("attempt", self.draws.between(1, len(self.wallet.events)), 200) if self.wallet.events else None


def play_stream(player, number, name):
    """So many requests, each with the work round behind it, and the files that tell of them."""
    cursor, requests, replies, turns, rounds = 0, [], [], [], []
    for _ in range(number):
        player.tick()
        asked = player.make(player.draws.weighted(player.WEIGHTS))
        word, begin = player.draws.word()[:16], len(player.wallet.entries)
        requests.append(request_data(asked.method, asked.target, body_data(asked.body), asked.who))
        turns.append("%d %s\n" % (player.clock, word.hex()))
        replies.append(player.play_request(asked, word).data())
        middle = len(player.wallet.entries)
        cursor = player.wallet.work_round(player.clock, cursor)
        rounds += [player.wallet.entries[begin:middle], player.wallet.entries[middle:]]
    for ending, data in (("", b"".join(requests)), (".replies", b"".join(replies)), (".turns", "".join(turns).encode()),
                         (".audit", player.wallet.audit().encode()), (".journal", journal(rounds))):
        with open(name + ending, "wb") as file:
            file.write(data)


def main():
    words = argparse.ArgumentParser()
    words.add_argument("number", nargs="?", type=int, default=10000)
    words.add_argument("--seed", default="1")
    words.add_argument("--stream")
    words = words.parse_args()
    player = Player(words.seed)
    if words.stream:
        play_stream(player, words.number, words.stream)
    else:
        for _ in range(words.number):
            player.play_one()
    counts = collections.Counter(type(entry.act).__name__ for entry in player.wallet.entries)
    print("%d tasks, %d acts (%s), replies %s, sha256 %s" % (
        words.number, len(player.wallet.entries), ", ".join("%s %d" % (act.__name__, counts[act.__name__]) for act in ACTS),
        ", ".join("%s %d" % pair for pair in sorted(player.codes.items(), key=str)), player.digest.hexdigest()))
    kinds = [act.__name__ for act in ACTS if not words.stream or act.__name__ != "Attempted"]
    missing = [kind for kind in kinds if not counts[kind]]
    missing += [name for name in [route[3] for route in ROUTES] + ["show_address"] if not player.routes[name]]
    if missing:
        sys.exit("missing: " + ", ".join(missing))
    place = legal_part(player.wallet.entries)
    if place < len(player.wallet.entries):
        sys.exit("act %d is not legal" % (place + 1))


if __name__ == "__main__":
    main()
