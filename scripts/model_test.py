"""The model of scripts/model.py against what docs/API.md, docs/FORMATS.md and worked rows say, but for payments
(model_payments_test.py). Nothing that is expected comes from the model. The six laws are looked at behind every act.
Use: make model"""
import hashlib
import hmac
import json
import os
import re
import tempfile
import unittest

import model_history as acted
from check_journal import fault_of
from model import Wallet, interaction_hash
from model_checks import (ALICE_PAYS, EVERYTHING, INCOMING_TOKEN, PAYING_TOKEN, PROVIDER, QUOTE_TOKEN, SHOPPER, Checks,
                          examples, purchase, read_file, ready)
from model_forms import (floor_mul, is_origin, is_path, least_source, print_moment, read_address_name, read_interval,
                         read_moment, read_value, scaled)
from model_http import NO_MASTER, Reply, Who, proof_of, read_request, request_data, who_asks
from model_journal import NoJournal, act_data, journal, read_journal
from model_play import ORIGIN, SHOP, T0, Play, amount, item, paying, row_id, row_url, usd
from random_tasks import Player, play_stream


class PurchaseTest(Checks):
    """The purchase, as docs/API.md and a proved text of each reply have it."""

    def test_replies_are_the_proved_texts_byte_for_byte(self):
        replies = purchase()[1]
        found = re.findall(r'(?m)^\w+ : reply_to (\d+) ≡ codes "(.*)"$',
                           read_file("crates", "op_reply", "proofs", "WorkedReplies.antt"))
        self.assertEqual([int(place) for place, _ in found], list(range(13)) + [14, 16, 18])
        for place, text in found:
            text = text.replace('\\"', '"').replace("\\r", "\r").replace("\\n", "\n")
            self.assertEqual(replies[int(place)].data().decode(), text)

    def test_steps_fund_and_send_two_pieces(self):
        replies = purchase()[1]
        self.assertEqual([replies[place] for place in (13, 15, 17)], [("funded",), ("sent",), ("completed",)])

    def test_balances_events_and_summary_at_the_end(self):
        play, _ = purchase()
        self.assertEqual(play.audit(), "entries 15\nasset USD/2 total 10000 pool 0 fees 10 wallets 9990 held 0\n"
                                       "payments 1 ended 1\n")
        self.balance(play, 1, "8990", "8990")
        self.balance(play, 2, "1000", "1000")
        self.assertEqual([event.word for event in play.events], [
            "incoming_payment.created", "outgoing_payment.created", "outgoing_payment.completed",
            "incoming_payment.completed"])

    def test_the_laws_have_the_numbers_of_the_document(self):
        full, play = purchase()[0], Play()
        came = [value for movements in full.movements for _, value in movements if value > 0]
        went = [-value for movements in full.movements for _, value in movements if value < 0]
        self.assertEqual((sum(came), sum(went)), (11010, 11010))
        for entry in full.entries[:14]:
            play.add(*entry)
        alice = "wallet", 1
        self.assertEqual((play.posted_on(alice), play.held_on(alice), play.available_on(alice)), (9495, 505, 8990))
        self.assertEqual(full.spent(3, 0), 1010)

    def test_replies_are_the_examples_of_the_document(self):
        play, replies = purchase()
        self.says(replies[1], 201, examples("POST `/admin/wallet-addresses`")[1])
        self.says(replies[3], 201, examples("POST `/admin/deposits`")[1])
        self.says(replies[4], 200, examples("GET an address path")[0])
        grant = examples("POST `/grant`")
        self.says(replies[5], 200, grant[0])
        self.says(replies[6], 201, examples("POST `/incoming-payments` makes")[1])
        self.says(replies[8], 201, examples("POST `/quotes`")[1])
        self.says(replies[9], 200, grant[2])
        self.says(replies[10], 200, examples("POST `/admin/interactions/{id}/accept`")[0])
        self.says(replies[11], 200, examples("POST `/continue/{id}`")[1])
        self.says(replies[12], 201, examples("POST `/outgoing-payments` makes")[1])
        self.says(replies[18], 200, examples("GET `/outgoing-payments/{id}` shows")[0])
        self.says(play.get("/admin/assets/USD/2"), 200, examples("GET `/admin/assets/{code}/{scale}`")[0])
        self.says(play.get("/admin/wallet-addresses/" + row_id(6, 1)), 200,
                  examples("GET `/admin/wallet-addresses/{id}`")[0])
        self.says(play.get("/admin/outgoing-payments/" + row_id(3, 1)), 200,
                  examples("GET `/admin/outgoing-payments/{id}`")[0])
        self.says(play.get("/incoming-payments/" + row_id(1, 1), INCOMING_TOKEN), 200,
                  examples("GET `/incoming-payments/{id}`")[0])
        self.says(play.transfer("withdrawals", "w-1", "fees", usd(10)), 201, examples("POST `/admin/deposits`")[3])

    def test_requests_are_the_examples_of_the_document(self):
        play = Play()
        self.says(play.post("/admin/origin", examples("POST `/admin/origin`")[0].encode()), 200,
                  '{"origin":"https://pay.example"}')
        play = Play()
        self.says(play.post("/admin/assets", examples("POST `/admin/assets`")[0].encode()), 201,
                  examples("POST `/admin/assets`")[0])
        play.add_asset("EUR", 2)
        self.says(play.post("/admin/rates", examples("POST `/admin/rates`")[0].encode()), 200,
                  examples("POST `/admin/rates`")[1])
        self.says(play.post("/admin/wallet-addresses", examples("POST `/admin/wallet-addresses`")[0].encode()), 201,
                  examples("POST `/admin/wallet-addresses`")[1])
        self.says(play.post("/admin/deposits", examples("POST `/admin/deposits`")[0].encode()), 201,
                  examples("POST `/admin/deposits`")[1])

    def test_cancelled_right_after_it_was_funded(self):
        play = Play()
        full, _ = purchase()
        for entry in full.entries[:13]:
            play.add(*entry)
        shown = examples("GET `/admin/outgoing-payments/{id}`")[1]
        self.says(play.post("/admin/outgoing-payments/%s/cancel" % row_id(3, 1)), 200, shown)
        self.says(play.get("/admin/outgoing-payments/" + row_id(3, 1)), 200, shown)
        self.refuses(play.post("/admin/outgoing-payments/%s/cancel" % row_id(3, 1)), 409, "already_ended")
        self.balance(play, 1, "10000", "10000")

    def test_token_rotated_when_thirteen_acts_stand(self):
        full, play = purchase()[0], Play()
        for entry in full.entries[:13]:
            play.add(*entry)
        play.now, play.turn = T0 + 13000, 13
        self.says(play.post("/token/" + row_id(4, 1), b"", INCOMING_TOKEN), 200, examples("POST `/token/{id}`")[0])

    def test_waiting_grant_is_told_to_wait_again(self):
        full, play = purchase()[0], Play()
        for entry in full.entries[:9]:
            play.add(*entry)
        self.assertEqual(type(play.entries[-1].act).__name__, "GrantAsked")
        play.now = play.last() + 5000
        self.says(play.post("/continue/" + row_id(4, 3), b"", Who(SHOP, True, "c09090909090909090909090909090909-9")),
                  200, examples("POST `/continue/{id}`")[2])

    def test_feed_of_the_purchase_with_a_page(self):
        play, replies = purchase({"page": "news"})
        self.assertEqual(replies[12].body["metadata"], {"page": "news"})
        who = play.granted([paying("/alice", "list")])
        self.says(play.get("/monetization?wallet-address=https://wallet.example/alice&page=news", who), 200,
                  examples("GET `/monetization`")[0])

    def test_lists_before_anything_was_paid(self):
        full, play = purchase()[0], Play()
        for entry in full.entries[:6]:
            play.add(*entry)
        shown = examples("GET `/incoming-payments`, GET `/outgoing-payments`")
        who = play.granted([item("incoming-payment", "list")])
        self.says(play.get("/incoming-payments?wallet-address=https://wallet.example/shop", who), 200, shown[2])
        who = play.granted([paying("/alice", "list")])
        self.says(play.get("/outgoing-payments?wallet-address=https://wallet.example/alice", who), 200, shown[3])

    def test_quote_is_shown_to_one_who_may_read(self):
        play, _ = purchase()
        who = play.granted([item("quote", "read")])
        self.says(play.get("/quotes/" + row_id(2, 1), who), 200, examples("GET `/quotes/{id}`")[0])

    def test_webhook_message_of_the_completed_payment(self):
        play, _ = purchase()
        body = ('{"data":{"debitAmount":{"assetCode":"USD","assetScale":2,"value":"1010"},'
                '"id":"https://wallet.example/outgoing-payments/00000003-0000-8000-8000-000000000001",'
                '"receiveAmount":{"assetCode":"USD","assetScale":2,"value":"1000"},'
                '"sentAmount":{"assetCode":"USD","assetScale":2,"value":"1000"},'
                '"walletAddress":"https://wallet.example/alice"},"id":"00000005-0000-8000-8000-000000000003",'
                '"type":"outgoing_payment.completed"}')
        digest = hmac.new(bytes(32), b"1709294415000." + body.encode(), hashlib.sha256).hexdigest()
        self.assertEqual(play.message(3, T0 + 15000, bytes(32)).decode(), (
            "POST / HTTP/1.1\r\nconnection: close\r\ncontent-length: %d\r\ncontent-type: application/json\r\n"
            "host: 127.0.0.1\r\nwallet-signature: t=1709294415000, v1=%s\r\n\r\n%s" % (len(body), digest, body)))


class PrintedTest(Checks):
    """Replies as bytes."""

    def test_each_proved_form_is_printed_from_its_status_and_what_its_json_says(self):
        found = re.findall(r'(?m)≡ codes "(HTTP/1.1 .*)"$', read_file("crates", "op_reply", "proofs", "WorkedForms.antt"))
        self.assertGreater(len(found), 40)
        for text in found:
            data = json.loads('"' + text + '"')
            head, body = data.split("\r\n\r\n")
            allow = re.search("(?m)^allow: (.*)\r$", head)
            reply = Reply(int(head[9:12]), json.loads(body) if body else None, allow and allow.group(1), ORIGIN)
            self.assertEqual(reply.data().decode(), data)


class FormsTest(Checks):
    """Values, moments, intervals and names."""

    def test_values(self):
        self.assertEqual([read_value(text) for text in ("0", "00", "", "1a", "1000000000000000000", "1000000000000000001")],
                         [0, None, None, None, 10 ** 18, None])

    def test_floor_and_least_source_at_three_halves_and_three_sevenths(self):
        self.assertEqual([least_source(101, 3, 2), floor_mul(68, 3, 2)], [68, 102])
        self.assertEqual([floor_mul(sent, 3, 7) for sent in (15, 30, 45, 60, 75, 90, 100)], [6, 12, 19, 25, 32, 38, 42])

    def test_values_with_their_point(self):
        self.assertEqual([scaled(1000, 2), scaled(45, 2), scaled(5, 2), scaled(7, 0)], ["10.00", "0.45", "0.05", "7"])

    def test_moments(self):
        texts = ("2024-02-29T12:00:00.123456789+01:00", "2023-02-29T00:00:00Z", "2024-03-01T12:00:60Z",
                 "2024-03-01 12:00:00Z", "9999-12-31T23:59:59.999Z", "1969-12-31T23:59:59.999Z", "2024-03-01t12:00:00z")
        self.assertEqual([read_moment(text) for text in texts],
                         [1709204400123, None, None, None, 253402300799999, None, T0])
        self.assertEqual(print_moment(T0 + 6000), "2024-03-01T12:00:06.000Z")

    def place(self, interval, moment):
        return read_interval(interval).place_of(read_moment(moment))

    def test_intervals_keep_the_day_or_take_the_last_of_a_month(self):
        interval = "R3/2024-01-31T00:00:00Z/P1M"
        for moment, place in (("2024-01-30T00:00:00Z", "before"), ("2024-02-28T23:59:59.999Z", 0),
                              ("2024-02-29T00:00:00Z", 1), ("2024-03-31T00:00:00Z", 2), ("2024-04-30T00:00:00Z", "after")):
            self.assertEqual(self.place(interval, moment), place)
        self.assertEqual(self.place("R2/2024-01-31T00:00:00Z/P1M", "2024-03-30T23:59:59.999Z"), 1)
        self.assertEqual(self.place("R2/2024-01-31T00:00:00Z/P1M", "2024-03-31T00:00:00Z"), "after")

    def test_intervals_of_a_year_come_back_to_the_leap_day(self):
        starts = [print_moment(read_interval("R/2024-02-29T06:00:00Z/P1Y").start_of(j)) for j in range(5)]
        self.assertEqual([start[:10] for start in starts],
                         ["2024-02-29", "2025-02-28", "2026-02-28", "2027-02-28", "2028-02-29"])

    def test_intervals_of_one_second(self):
        self.assertEqual(self.place("R/2024-03-01T00:00:00Z/PT1S", "2024-03-01T12:00:00Z"), 43200)
        self.assertEqual(self.place("R/1970-01-01T00:00:00Z/PT1S", "9999-12-31T23:59:59.999Z"), 253402300799)

    def test_intervals_that_are_none(self):
        for text in ("R0/2024-01-31T00:00:00Z/P1M", "R/2024-01-31T00:00:00Z/P0D", "R/2024-01-32T00:00:00Z/P1D", "P1D",
                     "R/2024-01-31T00:00:00Z/P1DT", "R/2024-01-31T00:00:00Z/P", "R01/2024-01-31T00:00:00Z/P1D",
                     "R/2024-01-31T00:00:00Z/P1W1D", "R/2024-01-31T00:00:00Z/P1234567D"):
            self.assertIsNone(read_interval(text), text)

    def test_names(self):
        self.assertTrue(is_origin("https://pay.example") and is_origin("http://127.0.0.1:8080"))
        for text in ("https://a@b", "https://pay.example/", "https://Pay.example", "https://pay.example:443", "ftp://a"):
            self.assertFalse(is_origin(text), text)
        self.assertEqual(read_address_name("$pay.example"), ("https://pay.example", "/.well-known/pay"))
        self.assertEqual(read_address_name("$pay.example/a"), ("https://pay.example", "/a"))
        for path in ("/admin", "/a/", "/a//b", "/./a", "/" + "a" * 65, "/a/b/c/d/e/f/g/h/i"):
            self.assertFalse(is_path(path), path)

    def test_proof_of_the_document(self):
        section = read_file("docs", "API.md").split("without `authorization`:")[1]
        body = re.search("```json[^\n]*\n(.*?)\n```", section).group(1).encode()
        proof = proof_of(NO_MASTER, SHOP, "POST", "/grant", body, None)
        self.assertEqual(proof, "e1508c6f21a328bd0df8f6a986bedbb2852c2fc5c76245138879b2ac161ca420")
        self.assertIn(proof, section)

    def test_a_request_is_read_from_its_bytes_with_the_one_who_asks(self):
        for who in (PROVIDER, SHOPPER, PAYING_TOKEN, Who(SHOP, False, "a0-1")):
            data = request_data("POST", "/grant?a=b", b'{"a":1}', who)
            self.assertEqual(read_request(data + b"more"), ("POST", "/grant?a=b", b'{"a":1}', who, b"more"))


class RequestsTest(Checks):
    """Refusals before a request is understood."""

    def test_paths_and_methods(self):
        play = Play()
        reply = play.post("/alice")
        self.refuses(reply, 405, "method_not_allowed")
        self.assertIn(b"\r\nallow: GET\r\n", reply.data())
        self.refuses(play.get("/"), 404, "not_found")
        self.assertEqual(play.get("/admin/assets").allow, "POST")
        self.assertEqual(play.send("PUT", "/outgoing-payments").allow, "GET, POST")
        self.refuses(play.post("/admin/assets/"), 404, "not_found")

    def test_bodies_that_are_no_object_and_members_that_break_their_form(self):
        play = Play()
        for body in (b"{", b"[]", b"", b"[" * 200, b'{"a":1e400}', b'{"a":"\\ud800"}', b'{"a":"\xff"}'):
            self.refuses(play.post("/admin/assets", body), 400, "bad_json")
        self.refuses(play.post("/admin/assets", {"assetCode": "USD"}), 400, "bad_field", name="assetScale")
        self.refuses(play.post("/admin/assets", {"assetCode": "USD", "assetScale": 19}), 400, "bad_field", name="assetScale")
        for scale in (b"2.0", b"2e0", b"-0", b'"2"', b"true", b"null"):
            self.refuses(play.post("/admin/assets", b'{"assetCode":"USD","assetScale":%s}' % scale), 400, "bad_field",
                         name="assetScale")
        self.says(play.post("/admin/assets", b'{"assetCode":"EUR","assetScale":3,"assetScale":2,"pieces":null,"x":0.5}'),
                  201, '{"assetCode":"EUR","assetScale":2,"pieces":1}')

    def test_refusals_of_forms_come_before_who_asks_and_have_a_code_of_their_own_for_grants(self):
        play = Play()
        self.refuses(play.get("/incoming-payments"), 400, "bad_field", name="wallet-address")
        self.refuses(play.get("/incoming-payments?wallet-address=a&first=0"), 400, "bad_field", name="first")
        self.refuses(play.get("/incoming-payments?wallet-address=%ff"), 400, "bad_field", name="wallet-address")
        self.refuses(play.get("/incoming-payments?wallet-address=a"), 401, "invalid_client")
        self.refuses(play.post("/grant", b"{"), 400, "invalid_request")
        self.refuses(play.post("/grant", b"{}"), 400, "invalid_request", name="access_token")
        self.refuses(play.post("/continue/x", b" "), 400, "invalid_request")
        self.refuses(play.post("/continue/x"), 401, "invalid_client")

    def test_metadata(self):
        play = ready()
        who = play.granted(EVERYTHING)
        for metadata in ([], {"a": 0.5}, {"a": [2 ** 64]}, {"a": "b" * 1017}):
            self.refuses(play.incoming(who, "/shop", metadata=metadata), 400, "bad_field", name="metadata")
        self.refuses(play.post("/incoming-payments", b'{"walletAddress":"x","metadata":{"a":-0}}', who), 400, "bad_field",
                     name="metadata")
        kept = {"b": [2 ** 64 - 1, -2 ** 63], "a": "é"}
        self.shows(play.incoming(who, "/shop", metadata=kept), 201, metadata=kept)


class ProviderTest(Checks):
    """Origin, assets, addresses, money."""

    def test_an_asset_is_added_once(self):
        play = Play()
        self.says(play.add_asset("USD", 2), 201, '{"assetCode":"USD","assetScale":2,"pieces":1}')
        self.refuses(play.add_asset("USD", 2), 409, "already_exists")
        self.refuses(play.get("/admin/assets/USD/02"), 404, "not_found")

    def test_origin_is_set_once_and_pointers_name_its_address(self):
        play = Play()
        self.says(play.post("/admin/origin", {"origin": "https://pay.example"}), 200, '{"origin":"https://pay.example"}')
        self.refuses(play.post("/admin/origin", {"origin": "https://pay.example"}), 409, "origin_fixed")
        play.add_asset("USD", 2)
        self.shows(play.add_address("/.well-known/pay"), 201, url="https://pay.example/.well-known/pay")
        for place, name in enumerate(("$pay.example", "$pay.example/", "https://pay.example/.well-known/pay")):
            self.shows(play.deposit("d%d" % place, name, usd(1)), 201, account="https://pay.example/.well-known/pay")
        self.refuses(play.deposit("d", "https://wallet.example/.well-known/pay", usd(1)), 404, "not_found")

    def test_origin_is_fixed_by_an_address(self):
        self.refuses(ready().post("/admin/origin", {"origin": "https://pay.example"}), 409, "origin_fixed")

    def test_repeated_deposit(self):
        play = ready()
        first = '{"account":"https://wallet.example/alice","amount":{"assetCode":"USD","assetScale":2,"value":"10000"},' \
                '"transferId":"dep-1"}'
        acts = len(play.entries)
        self.says(play.deposit("dep-1", "https://wallet.example/alice", usd(10000)), 201, first)
        self.refuses(play.deposit("dep-1", ORIGIN + "/alice", usd(10001)), 409, "transfer_id_used")
        self.refuses(play.deposit("dep-1", ORIGIN + "/shop", usd(10000)), 409, "transfer_id_used")
        self.refuses(play.transfer("withdrawals", "dep-1", ORIGIN + "/alice", usd(10000)), 409, "transfer_id_used")
        self.assertEqual(len(play.entries), acts)
        self.balance(play, 1, "10000", "10000")

    def test_a_withdrawal_that_is_repeated_is_not_looked_at_again(self):
        play = ready()
        self.assertEqual(play.transfer("withdrawals", "w", ORIGIN + "/alice", usd(6000)).status, 201)
        self.assertEqual(play.transfer("withdrawals", "w", ORIGIN + "/alice", usd(6000)).status, 201)
        self.balance(play, 1, "4000", "4000")

    def test_total_ends_at_the_top(self):
        play = ready()
        self.assertEqual(play.deposit("d", "pool", usd(10 ** 18 - 10000)).status, 201)
        self.refuses(play.deposit("e", "pool", usd(1)), 409, "asset_full", total="1000000000000000000")
        play.add_asset("EUR", 2)
        self.assertEqual(play.deposit("f", "pool", amount("EUR", 2, 10 ** 18)).status, 201)
        self.assertEqual(play.transfer("withdrawals", "g", "pool", amount("EUR", 2, 10 ** 18)).status, 201)
        self.shows(play.get("/admin/assets/EUR/2"), 200, total="0", pool="0")

    def test_refusals_of_transfers(self):
        play = ready()
        play.add_asset("EUR", 2)
        self.refuses(play.deposit("d", ORIGIN + "/alice", usd(0)), 400, "zero_amount")
        self.refuses(play.deposit("d", ORIGIN + "/alice", amount("EUR", 2, 0)), 400, "zero_amount")
        self.refuses(play.deposit("d", "fees", usd(1)), 404, "not_found")
        self.refuses(play.deposit("d", ORIGIN + "/alice", amount("JPY", 0, 1)), 404, "not_found")
        self.refuses(play.deposit("d", ORIGIN + "/alice", amount("EUR", 2, 1)), 400, "asset_mismatch")
        self.refuses(play.transfer("withdrawals", "d", "fees", usd(5)), 409, "short", available="0")
        play.deposit("e", ORIGIN + "/shop", usd(4))
        self.refuses(play.transfer("withdrawals", "d", ORIGIN + "/shop", usd(5)), 409, "short", available="4")

    def test_rates(self):
        play = ready()
        self.refuses(play.set_rate(("USD", 2), ("EUR", 2), 9, 10), 404, "not_found")
        self.refuses(play.set_rate(("USD", 2), ("USD", 2), 9, 10), 400, "same_asset")
        self.refuses(play.set_rate(("USD", 2), ("USD", 2), 0, 10), 400, "bad_field", name="num")


class GrantsTest(Checks):
    """Grants and their tokens."""

    def asked(self):
        play = ready()
        reply = play.post("/grant", ALICE_PAYS, SHOPPER)
        number = reply.body["continue"]["uri"][-36:]
        return play, "/continue/" + number, Who(SHOP, True, reply.body["continue"]["access_token"]["value"])

    def test_refusals_of_a_request_for_a_grant(self):
        play = ready()
        body = {"access_token": {"access": [item("incoming-payment", "create")]}, "client": SHOP}
        self.refuses(play.post("/grant", body, Who(SHOP, False, None)), 401, "invalid_client")
        self.refuses(play.post("/grant", dict(body, client="https://other.example"), SHOPPER), 401, "invalid_client")
        self.assertIn(b"www-authenticate: GNAP as_uri=https://wallet.example/grant\r\n", play.post("/grant", body).data())
        self.refuses(play.asks([paying("/alice")]), 400, "invalid_interaction")
        self.refuses(play.asks([paying("/alice")], interact={"start": []}), 400, "invalid_interaction")
        self.refuses(play.asks([paying("/bob")], interact={"start": ["redirect"]}), 403, "request_denied")
        self.refuses(play.asks([paying("/alice", debitAmount=amount("JPY", 0, 1))], interact={"start": ["redirect"]}),
                     403, "request_denied")
        self.refuses(play.asks([paying("/alice", receiver=row_url("incoming-payments", 1))],
                               interact={"start": ["redirect"]}), 403, "request_denied")
        for broken in ([], [item("quote", "create")] * 2, [item("quote", "complete")], [item("quote")],
                       [item("outgoing-payment", "create")], [paying("/alice", interval="P1D")],
                       [paying("/alice", debitAmount=usd(1), receiveAmount=usd(1))]):
            self.refuses(play.asks(broken), 400, "invalid_request", name="access_token")
        for broken in ({}, {"start": "redirect"}, {"start": [], "finish": {"method": "push"}},
                       {"start": [], "finish": {"method": "redirect", "uri": "https://a/#b", "nonce": "n"}}):
            self.refuses(play.asks([item("quote", "create")], interact=broken), 400, "invalid_request", name="interact")

    def test_items_stand_in_the_order_of_types_and_actions(self):
        reply = ready().asks([item("quote", "read-all", "create", "create"), item("incoming-payment", "list", "read")])
        self.assertEqual(reply.body["access_token"]["access"], [
            {"actions": ["read", "list"], "type": "incoming-payment"},
            {"actions": ["create", "read-all"], "type": "quote"}])

    def test_the_hash_of_the_example_of_rfc_9635(self):
        self.assertEqual(interaction_hash("VJLO6A4CATR0KRO", "MBDOFXG4Y5CVJCX821LH", "4IFWWIKYB2PQ6U56NL1",
                                          "https://server.example.com/tx"), "x-gguKWTj8rQf7d7i3w3UhzvuJ5bpOlKyAlVpLxBffY")

    def test_what_clients_of_the_open_payments_libraries_send(self):
        play, quote = ready(), {"access": [item("quote", "create", identifier=7)]}
        body = {"access_token": quote, "client": SHOP, "subject": {"sub_ids": []}}
        self.assertEqual(play.post("/grant", body, SHOPPER).status, 200)
        self.refuses(play.post("/grant", {"client": SHOP, "subject": {}}, SHOPPER), 400, "invalid_request",
                     name="access_token")
        self.refuses(play.post("/grant", dict(body, access_token=[quote]), SHOPPER), 400, "invalid_request",
                     name="access_token")
        self.refuses(play.post("/grant", dict(body, client={"walletAddress": SHOP}), SHOPPER), 400, "invalid_request",
                     name="client")
        self.refuses(play.post("/grant", dict(body, client="https://" + "a" * 249), SHOPPER), 400, "invalid_request",
                     name="client")
        who = play.granted([item("incoming-payment", "list")])
        self.assertEqual(play.get("/incoming-payments?wallet-address=$wallet.example/shop&last=5", who).status, 200)
        self.refuses(play.get("/incoming-payments/" + row_id(1, 1)), 401, "invalid_client")
        self.refuses(play.get("/shop/jwks.json"), 404, "not_found")
        self.assertEqual(play.add_address("/shop/jwks.json").status, 201)
        self.assertEqual(play.get("/shop/jwks.json").status, 200)

    def test_who_asks(self):
        request = "GET", "/x", b""
        fields = {"wallet-client": SHOP, "wallet-signature": proof_of(NO_MASTER, SHOP, *request, "gNaP a-1"),
                  "authorization": "gNaP a-1"}
        self.assertEqual(who_asks(fields, *request), Who(SHOP, True, "a-1"))
        upper = dict(fields, **{"wallet-signature": fields["wallet-signature"].upper()})
        self.assertEqual(who_asks(upper, *request), Who(SHOP, True, "a-1"))
        self.assertEqual(who_asks(fields, "POST", "/x", b""), Who(SHOP, False, "a-1"))
        self.assertEqual(who_asks(dict(fields, authorization="GNAP a-1"), *request), Who(SHOP, False, "a-1"))
        for other in ("GNAPa", "Bearer a", "GNAP " + "a" * 55):
            self.assertEqual(who_asks({"authorization": other}, *request), PROVIDER)
        self.assertEqual(who_asks({"wallet-client": "shop", "wallet-signature": "0" * 64}, *request), PROVIDER)

    def test_limits_are_printed_as_they_were_asked_for(self):
        play = ready()
        play.incoming(play.granted(EVERYTHING), "/shop")
        limits = {"receiver": row_url("incoming-payments", 1), "receiveAmount": usd(0), "interval": "R/2024-03-01t12:00:00Z/P1M"}
        for found in ({}, limits, {"debitAmount": usd(7), "receiveAmount": None}):
            who = play.granted([dict(paying("/alice"), limits=found)])
            number = play.grant_of_token[who.token]
            reply = play.post("/token/" + row_id(4, number), b"", who)
            kept = {name: value for name, value in found.items() if value is not None}
            self.assertEqual(reply.body["access_token"]["access"][0]["limits"], kept)

    def test_too_fast_until_five_seconds_have_passed(self):
        play, target, who = self.asked()
        play.now += 4999
        self.refuses(play.post(target, b"", who), 400, "too_fast")
        play.now += 1
        self.shows(play.post(target, b"", who), 200)
        play.now += 4999
        self.refuses(play.post(target, b"", who), 400, "too_fast")
        play.now += 1
        self.assertEqual(play.post(target, b"", who).status, 200)

    def test_references_are_those_that_were_drawn(self):
        play, target, who = self.asked()
        self.refuses(play.post(target, {"interact_ref": "x"}, who), 400, "invalid_interaction")
        play.post("/admin/interactions/%s/accept" % target[-36:])
        self.refuses(play.post(target, {"interact_ref": "x"}, who), 400, "invalid_interaction")
        self.refuses(play.post(target, b"", who), 400, "too_fast")
        play.now += 5000
        self.refuses(play.post(target, b"", who), 400, "invalid_interaction")
        self.refuses(play.post("/admin/interactions/%s/reject" % target[-36:]), 409, "not_pending")
        reply = play.post(target, {"interact_ref": play.grants[0].reference}, who)
        self.assertEqual(reply.status, 200)
        self.assertEqual(sorted(reply.body), ["access_token", "continue"])
        self.refuses(play.post(target, {"interact_ref": play.grants[0].reference}, who), 401, "invalid_continuation")

    def test_a_rejected_grant_is_denied(self):
        play, target, who = self.asked()
        self.assertIn("redirect", play.post("/admin/interactions/%s/reject" % target[-36:]).body)
        self.refuses(play.post(target, {"interact_ref": "x"}, who), 403, "user_denied")
        self.refuses(play.post("/admin/interactions/%s/accept" % target[-36:]), 409, "not_pending")
        self.refuses(play.post("/admin/interactions/%s/accept" % row_id(4, 9)), 404, "not_found")

    def test_a_grant_without_a_finish_is_decided_without_a_redirect(self):
        play = ready()
        reply = play.asks([paying("/alice")], interact={"start": ["redirect"]})
        self.assertNotIn("finish", reply.body["interact"])
        self.says(play.post("/admin/interactions/%s/accept" % row_id(4, 1)), 200, "{}")
        who = Who(SHOP, True, reply.body["continue"]["access_token"]["value"])
        for reference in ("x", play.grants[0].reference):
            self.refuses(play.post("/continue/" + row_id(4, 1), {"interact_ref": reference}, who), 400, "invalid_interaction")
        play.now += 5000
        self.assertIn("access_token", play.post("/continue/" + row_id(4, 1), b"", who).body)

    def test_a_token_lives_ten_minutes(self):
        play = ready()
        who, reading = play.granted([item("incoming-payment", "read")]), "/incoming-payments/" + row_id(1, 1)
        play.now = T0 + 599999
        self.refuses(play.get(reading, who), 404, "not_found")
        play.now = T0 + 600000
        self.refuses(play.get(reading, who), 401, "invalid_token")
        reply = play.post("/token/" + row_id(4, 1), b"", who)
        self.assertEqual(reply.status, 200)
        self.refuses(play.post("/token/" + row_id(4, 1), b"", who), 401, "invalid_token")
        self.refuses(play.get(reading, who), 401, "invalid_token")
        who = Who(SHOP, True, reply.body["access_token"]["value"])
        play.now = T0 + 600000 + 599999
        self.refuses(play.get(reading, who), 404, "not_found")
        gone = play.send("DELETE", "/token/" + row_id(4, 1), b"", who)
        self.assertEqual(gone.data(), b"HTTP/1.1 204 No Content\r\nconnection: close\r\n\r\n")
        self.refuses(play.get(reading, who), 401, "invalid_token")
        self.refuses(play.post("/token/" + row_id(4, 1), b"", who), 401, "invalid_token")

    def test_a_cancelled_grant_has_no_token(self):
        play = ready()
        reply = play.asks([item("incoming-payment", "read")])
        who = Who(SHOP, True, reply.body["continue"]["access_token"]["value"])
        self.refuses(play.post("/continue/" + row_id(4, 1), b"", who), 401, "invalid_continuation")
        self.refuses(play.send("DELETE", "/continue/" + row_id(4, 1), b"", who._replace(client="https://b.example")), 401,
                     "invalid_continuation")
        self.assertEqual(play.send("DELETE", "/continue/" + row_id(4, 1), b"", who).status, 204)
        self.refuses(play.send("DELETE", "/continue/" + row_id(4, 1), b"", who), 401, "invalid_continuation")
        token = Who(SHOP, True, reply.body["access_token"]["value"])
        self.refuses(play.get("/incoming-payments/" + row_id(1, 1), token), 401, "invalid_token")
        self.refuses(play.post("/token/" + row_id(4, 1), b"", token), 401, "invalid_token")

    def test_rules_of_a_token(self):
        play = ready()
        who = play.granted([item("incoming-payment", "create", identifier=ORIGIN + "/alice")])
        self.refuses(play.incoming(who._replace(client="https://b.example"), "/alice"), 403, "access_denied",
                     rule="other_client")
        self.refuses(play.quote(who, "/alice", 1), 403, "access_denied", rule="no_type")
        self.refuses(play.get("/incoming-payments/" + row_id(1, 1), who), 403, "access_denied", rule="no_action")
        self.refuses(play.incoming(who, "/shop"), 403, "access_denied", rule="other_address")
        self.refuses(play.incoming(who, "/bob"), 404, "not_found")
        self.refuses(play.incoming(Who(SHOP, True, None), "/alice"), 401, "invalid_token")


class IncomingTest(Checks):
    """Incoming payments, and lists of them."""

    def test_refusals(self):
        play = ready()
        play.add_asset("EUR", 2)
        who = play.granted(EVERYTHING)
        self.refuses(play.incoming(who, "/shop", usd(0)), 400, "zero_amount")
        self.refuses(play.incoming(who, "/shop", amount("JPY", 0, 1)), 404, "not_found")
        self.refuses(play.incoming(who, "/shop", amount("EUR", 2, 1)), 400, "asset_mismatch")
        self.refuses(play.incoming(who, "/shop", expiresAt="2024-03-01T12:00:00Z"), 400, "expires_in_past")
        self.shows(play.incoming(who, "/shop"), 201, expiresAt="2024-03-31T12:00:00.000Z", incomingAmount=None)

    def at_expiry(self, moment):
        """The incoming payment of the purchase, not paid, with its tokens rotated before its expiry."""
        full, play = purchase()[0], Play()
        for entry in full.entries[:8]:
            play.add(*entry)
        play.now = 1709296200000
        tokens = [play.post("/token/" + row_id(4, n), b"", who).body["access_token"]["value"]
                  for n, who in ((1, INCOMING_TOKEN), (2, QUOTE_TOKEN))]
        play.now = moment
        return play, Who(SHOP, True, tokens[0]), Who(SHOP, True, tokens[1])

    def test_closed_at_its_expiry_to_the_millisecond(self):
        target = "/incoming-payments/%s/complete" % row_id(1, 1)
        play, who, _ = self.at_expiry(1709296200122)
        self.shows(play.post(target, b"", who), 200, completed=True)
        play, who, quoting = self.at_expiry(1709296200123)
        self.refuses(play.post(target, b"", who), 409, "already_closed")
        self.refuses(play.quote(quoting, "/alice", 1), 409, "receiver_closed")
        self.shows(play.get("/incoming-payments/" + row_id(1, 1), who), 200, completed=False)
        self.assertEqual(play.work(play.now - 1, 0), ([], 0))
        self.assertEqual(play.work(play.now, 0), ([("expire", 1)], 0))
        self.assertEqual(play.expire(play.now - 1, 1), ("not_due",))
        self.assertEqual(play.expire(play.now, 1), ("noted",))
        self.assertEqual(play.expire(play.now, 1), ("not_due",))
        self.assertEqual(play.events[-1].word, "incoming_payment.expired")

    def test_lists_of_two_clients(self):
        play = ready()
        one = play.granted([item("incoming-payment", "create", "list", "read")], "https://a.example")
        two = play.granted([item("incoming-payment", "create")], "https://b.example")
        play.incoming(one, "/shop")
        play.incoming(two, "/shop")
        target = "/incoming-payments?wallet-address=https://wallet.example/shop"
        reply = play.get(target, one)
        self.assertEqual([row["id"] for row in reply.body["result"]], [row_url("incoming-payments", 1)])
        everyone = play.granted([item("incoming-payment", "list-all", "read-all")], "https://a.example")
        reply = play.get(target, everyone)
        self.assertEqual([row["id"][-1] for row in reply.body["result"]], ["1", "2"])
        reply = play.get(target + "&first=1", everyone)
        self.assertEqual(reply.body["pagination"], {"endCursor": row_id(1, 1), "hasNextPage": True,
                                                    "hasPreviousPage": False, "startCursor": row_id(1, 1)})
        reply = play.get(target + "&first=1&cursor=" + row_id(1, 1), everyone)
        self.assertEqual(reply.body["pagination"], {"endCursor": row_id(1, 2), "hasNextPage": False,
                                                    "hasPreviousPage": True, "startCursor": row_id(1, 2)})
        two = play.granted([item("incoming-payment", "list")], "https://b.example")
        reply = play.get(target + "&cursor=" + row_id(1, 1), two)
        self.assertEqual(reply.body["pagination"], {"endCursor": row_id(1, 2), "hasNextPage": False,
                                                    "hasPreviousPage": False, "startCursor": row_id(1, 2)})
        reply = play.get(target + "&cursor=" + row_id(1, 9), two)
        self.assertEqual(reply.body, {"pagination": {"hasNextPage": False, "hasPreviousPage": True}, "result": []})
        self.refuses(play.get("/incoming-payments/" + row_id(1, 2), one), 403, "access_denied", rule="other_owner")
        self.assertEqual(play.get("/incoming-payments/" + row_id(1, 2), everyone).status, 200)
        self.refuses(play.get(target + "x", one), 404, "not_found")
        self.refuses(play.get(target + "&cursor=" + row_id(2, 1), one), 400, "bad_field", name="cursor")


class JournalTest(Checks):
    """Acts and rounds as docs/FORMATS.md has them."""

    def test_samples_of_each_kind(self):
        word = b"\xa5" * 16
        acts = [acted.OriginSet("https://w.example"), acted.AssetAdded("USD", 2, 1), acted.AddressAdded("/ann", 1, "Ann"),
                acted.Deposited("t1", ("wallet", 1), 10000), acted.Withdrawn("t2", ("pool", 1), 500),
                acted.RateSet(1, 2, 3, 2), acted.IncomingMade(1, 2, 7000, T0, None), acted.IncomingCompleted(1, 1),
                acted.IncomingExpired(1), acted.QuoteMade(1, 1, 1, "debit", 200, 200, 198, 2, 198, 1, 1),
                acted.GrantAsked("https://c.example", (acted.Item("outgoing-payment", ("create",), 1, None),), None, word),
                acted.GrantAccepted(1, word), acted.GrantRejected(1, word), acted.GrantPolled(1),
                acted.GrantContinued(1, word), acted.GrantCancelled(1), acted.TokenRotated(1, word), acted.TokenRevoked(1),
                acted.OutgoingMade(1, 1, "{}"), acted.OutgoingFunded(1, 0), acted.OutgoingSent(1, 1),
                acted.OutgoingCompleted(1, 2), acted.OutgoingFailed(1, 1, "receiver_closed"), acted.Attempted(3, 200),
                acted.OutgoingDirect(1, 1, 1, 200, 198, 2, 198, 1, 1, None)]
        table = read_file("docs", "FORMATS.md").split("### A sample of each kind")[1].split("## Webhook messages")[0]
        rows = re.findall("(?m)^[|] `([0-9a-f]{2})` [|] (.*) [|]$", table)
        self.assertEqual(len(rows), 25)
        for act, (kind, bytes_and_meanings) in zip(acts, rows):
            expected = kind + "".join(re.findall("`([0-9a-f ]+)`", bytes_and_meanings)).replace(" ", "")
            self.assertEqual(act_data(act).hex(), expected, type(act).__name__)

    def test_a_journal_with_one_asset_and_the_round_of_one_step(self):
        entry = acted.Entry(T0, acted.AssetAdded("USD", 2, 1))
        self.assertEqual(journal([]).hex(), "4f50574a0000000100")
        self.assertEqual(journal([[], [entry]]).hex(), "4f50574a00000001" "01" "00000011" "02" "0000018df9e2b200"
                                                       "02" "0003555344" "02" "01" "00")
        step = acted.Entry(T0 + 12000, acted.OutgoingFunded(1, 0))
        self.assertEqual(journal([[step]])[8:].hex(), "01" "0000001a" "02" "0000018df9e2e0e0" "14" "0000000000000001"
                                                      "0000000000000000" "00")

    def test_journals_of_both_versions_are_read(self):
        usd, eur = acted.Entry(T0, acted.AssetAdded("USD", 2, 1)), acted.Entry(T0, acted.AssetAdded("EUR", 2, 1))
        first = "4f50574a00000001" "01" "00000010" "0000018df9e2b200" "02" "0003555344" "02" "01"
        self.assertEqual(read_journal(bytes.fromhex(first + "00")), [[usd]])
        second = "01" "00000011" "02" "0000018df9e2b200" "02" "0003455552" "02" "01" "00"
        self.assertEqual(len(bytes.fromhex(first + second)), 52)
        self.assertEqual(read_journal(bytes.fromhex(first + second)), [[usd], [eur]])
        self.assertEqual(read_journal(bytes.fromhex(first + "00" "aabbcc")), [[usd]])
        for data in ("", "00", "4f50574a00000001" "07" "aabbcc"):
            self.assertEqual(read_journal(bytes.fromhex(data)), [])

    def test_journals_that_spell_no_history(self):
        begin, moment, code = "4f50574a00000001" "01", "0000018df9e2b200", "0003555344"
        for data in ("4f50574b00000001" "00" "00", begin + "00000000" "00", begin + "00000010" + moment + "02" + code + "02",
                     begin + "00000009" + moment + "63" "00", begin + "0000000a" "02" + moment + "63" "00",
                     begin + "00000011" "03" + moment + "02" + code + "02" "01" "00",
                     begin + "0000000f" + moment + "02" + code + "02" "00",
                     begin + "0000005b" + moment + "19" + "00" * 82 + "00"):
            with self.assertRaises(NoJournal, msg=data):
                read_journal(bytes.fromhex(data))

    def test_a_journal_of_random_requests_is_read_again_and_is_legal(self):
        with tempfile.TemporaryDirectory() as folder:
            name = os.path.join(folder, "s")
            play_stream(Player("journal"), 1000, name)
            rounds = read_journal(read_bytes(name + ".journal"))
            self.assertEqual(journal(rounds), read_bytes(name + ".journal"))
            fault, wallet = fault_of(rounds)
            self.assertIsNone(fault)
            self.assertEqual(wallet.audit().encode(), read_bytes(name + ".audit"))
        entries = rounds[-1]
        self.assertIn("is not legal", fault_of(rounds[:-1] + [[entries[0]._replace(at=0)]])[0])

    def test_items_with_limits(self):
        limits = acted.Limits(2, acted.Cap(True, 1, 500), "R/2024-03-01T00:00:00Z/P1M")
        item = acted.Item("outgoing-payment", ("create", "read", "read-all", "list", "list-all"), 1, limits)
        data = act_data(acted.GrantAsked("https://c", (item,), acted.Finish("https://d", "n"), bytes(16)))
        self.assertEqual(data.hex(), "0b" "0009" + b"https://c".hex() + "01" "03" "3d" "0100000001" "01"
                         "010000000000000002" "01" "00000001" "00000000000001f4" "01" "001a"
                         + b"R/2024-03-01T00:00:00Z/P1M".hex() + "01" "0009" + b"https://d".hex() + "0001" "6e" + "00" * 16)


class StreamTest(Checks):
    """The files that random_tasks.py writes."""

    def test_a_stream_is_played_again_from_its_bytes(self):
        with tempfile.TemporaryDirectory() as folder:
            name = os.path.join(folder, "s")
            play_stream(Player("test"), 500, name)
            requests, replies, turns, audit, kept = (
                read_bytes(name + end) for end in ("", ".replies", ".turns", ".audit", ".journal"))
        wallet, cursor, again, rounds = Wallet(), 0, b"", []
        for turn in turns.decode().splitlines():
            clock, word = turn.split(" ")
            method, target, body, who, requests = read_request(requests)
            begin = len(wallet.entries)
            again += wallet.ask(int(clock), bytes.fromhex(word), method, target, body, who).data()
            middle = len(wallet.entries)
            cursor = wallet.work_round(int(clock), cursor)
            rounds += [wallet.entries[begin:middle], wallet.entries[middle:]]
        self.assertEqual((requests, again == replies), (b"", True))
        self.assertEqual((wallet.audit().encode(), journal(rounds) == kept), (audit, True))


def read_bytes(name):
    with open(name, "rb") as file:
        return file.read()


if __name__ == "__main__":
    unittest.main()
