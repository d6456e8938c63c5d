"""Quotes, payments, limits, events and feeds of the model of scripts/model.py against worked rows, and the laws against
wrong wallets. Nothing that is expected comes from the model. Use: make model"""
import unittest
from unittest import mock

from model_checks import EVERYTHING, INCOMING_TOKEN, PAYING_TOKEN, Checks, purchase, ready
from model_forms import LAST, floor_mul
from model_laws import Broken
from model_play import ORIGIN, T0, amount, paying, row_id, row_url, usd


class QuotesTest(Checks):
    """Prices."""

    def receiving(self, moved, *rule):
        play = ready(1, *rule)
        who = play.granted(EVERYTHING)
        play.incoming(who, "/shop", moved)
        return play, who

    def test_prices_within_one_asset(self):
        play, who = self.receiving(usd(100))
        self.refuses(play.quote(who, "/alice", 1, debitAmount=usd(1)), 400, "too_small")
        self.shows(play.quote(who, "/alice", 1, debitAmount=usd(2)), 201, debitAmount=usd(2), receiveAmount=usd(1))
        self.refuses(play.quote(who, "/alice", 1, debitAmount=usd(200)), 409, "over_receiver", room="100")
        self.refuses(play.quote(who, "/alice", 1, receiveAmount=usd(10 ** 18)), 400, "too_large")
        self.refuses(play.quote(who, "/alice", 1, receiveAmount=usd(0)), 400, "too_small")

    def test_refusals_of_a_quote(self):
        play, who = self.receiving(None)
        play.add_asset("EUR", 2)
        play.add_address("/eva", "EUR")
        self.refuses(play.quote(who, "/alice", 1), 400, "no_amount")
        self.refuses(play.quote(who, "/alice", 2), 404, "not_found")
        self.refuses(play.quote(who, "/alice", 1, debitAmount=amount("EUR", 2, 5)), 400, "asset_mismatch")
        self.refuses(play.quote(who, "/eva", 1, debitAmount=amount("EUR", 2, 5)), 409, "no_rate")
        self.refuses(play.quote(who, "/alice", 1, debitAmount=usd(5), receiveAmount=usd(5)), 400, "bad_field",
                     name="receiveAmount")
        self.refuses(play.quote(who, "/alice", 1, method="x"), 400, "bad_field", name="method")

    def test_another_fee_rule(self):
        play, who = self.receiving(None, lambda amount: amount // 2)
        self.shows(play.quote(who, "/alice", 1, debitAmount=usd(101)), 201, debitAmount=usd(101), receiveAmount=usd(51))
        self.assertEqual((play.quotes[0].fee, play.quotes[0].source), (50, 51))


def exchange(num, den, pieces, pool):
    """USD is cut into pieces and changed into EUR at a rate; the pool of EUR has money, and Eva is paid in EUR."""
    play = ready(pieces)
    play.add_asset("EUR", 2)
    play.add_address("/eva", "EUR")
    play.set_rate(("USD", 2), ("EUR", 2), num, den)
    play.deposit("pool", "pool", amount("EUR", 2, pool))
    return play, play.granted(EVERYTHING)


class PaymentsTest(Checks):
    """Outgoing payments and their steps."""

    def steps(self, play, number):
        """The answers to the steps of a payment, until one leaves it as it is."""
        answers = [play.step(play.now, number, play.payments[number - 1].step)]
        while answers[-1][0] in ("funded", "sent"):
            answers.append(play.step(play.now, number, play.payments[number - 1].step))
        return [answer[0] for answer in answers]

    def progress(self, play, number):
        body = play.get("/admin/outgoing-payments/" + row_id(3, number)).body
        return body["sent"], body["fee"], body["delivered"], body["state"], body["step"]

    def test_the_last_piece_at_three_halves_passes_the_bound(self):
        play, who = exchange(3, 2, 1, 102)
        play.incoming(who, "/eva", amount("EUR", 2, 101))
        self.shows(play.quote(who, "/alice", 1), 201, debitAmount=usd(69), receiveAmount=amount("EUR", 2, 102))
        self.assertEqual((play.quotes[0].source, play.quotes[0].fee), (68, 1))
        play.pay(play.granted([paying("/alice")]), "/alice", 1)
        self.assertEqual(self.steps(play, 1), ["funded", "completed"])
        self.shows(play.get("/incoming-payments/" + row_id(1, 1), who), 200, completed=True,
                   receivedAmount=amount("EUR", 2, 102))
        self.shows(play.get("/admin/assets/EUR/2"), 200, pool="0", total="102")
        self.shows(play.get("/admin/assets/USD/2"), 200, pool="68", fees="1", total="10000")

    def seven_pieces(self, **limits):
        play, who = exchange(3, 7, 7, 42)
        play.incoming(who, "/eva")
        play.quote(who, "/alice", 1, debitAmount=usd(102))
        payer = play.granted([paying("/alice", **limits)])
        play.pay(payer, "/alice", 1)
        return play, who, payer

    def test_seven_pieces_at_three_sevenths(self):
        play, _, _ = self.seven_pieces()
        self.assertEqual((play.quotes[0].fee, play.quotes[0].source, play.payments[0].piece), (2, 100, 15))
        self.assertEqual(play.step(play.now, 1, 0), ("funded",))
        self.balance(play, 1, "10000", "9898")
        rows = [(15, 0, 6), (30, 0, 12), (45, 0, 19), (60, 1, 25), (75, 1, 32), (90, 1, 38), (100, 2, 42)]
        for step, (sent, fee, delivered) in enumerate(rows, 1):
            answer = play.step(play.now, 1, step)
            self.assertEqual(answer, ("completed",) if step == 7 else ("sent",))
            state = "COMPLETED" if step == 7 else "SENDING"
            self.assertEqual(self.progress(play, 1), (str(sent), str(fee), str(delivered), state, step + 1))
        self.balance(play, 1, "9898", "9898")
        self.balance(play, 3, "42", "42")

    def test_receiver_completed_by_request_after_45_were_sent(self):
        play, who, payer = self.seven_pieces(debitAmount=usd(102))
        for step in range(4):
            play.step(play.now, 1, step)
        self.assertEqual(play.spent(2, 0), 102)
        self.shows(play.post("/incoming-payments/%s/complete" % row_id(1, 1), b"", who), 200, completed=True)
        self.assertEqual(play.step(play.now, 1, 4), ("failed", "receiver_closed"))
        self.assertEqual(self.progress(play, 1), ("45", "0", "19", "FAILED", 5))
        self.balance(play, 1, "9955", "9955")
        self.balance(play, 3, "19", "19")
        self.assertEqual(play.spent(2, 0), 45)
        self.shows(play.get("/outgoing-payments/" + row_id(3, 1), payer), 200, failed=True, sentAmount=usd(45))
        play.incoming(who, "/eva")
        self.refuses(play.pay_directly(payer, "/alice", 2, usd(58)), 403, "access_denied", rule="over_limit", spent="45")
        self.shows(play.pay_directly(payer, "/alice", 2, usd(57)), 201, grantSpentDebitAmount=usd(102))

    def test_a_failed_payment_counts_the_fee_that_was_taken_too(self):
        play, _, _ = self.seven_pieces(debitAmount=usd(102))
        for step in range(5):
            play.step(play.now, 1, step)
        self.assertEqual(play.post("/admin/outgoing-payments/%s/cancel" % row_id(3, 1)).status, 200)
        self.assertEqual(self.progress(play, 1), ("60", "1", "25", "FAILED", 6))
        self.assertEqual(play.spent(2, 0), 61)

    def test_a_pool_that_is_too_small_makes_a_payment_wait(self):
        play, who = exchange(3, 7, 7, 5)
        play.incoming(who, "/eva")
        play.quote(who, "/alice", 1, debitAmount=usd(102))
        play.pay(play.granted([paying("/alice")]), "/alice", 1)
        self.assertEqual(play.step(play.now, 1, 0), ("funded",))
        self.assertEqual(play.step(play.now, 1, 1), ("no_liquidity", 5, 6))
        play.deposit("more", "pool", amount("EUR", 2, 1))
        self.assertEqual(play.step(play.now, 1, 1), ("sent",))

    def two_payments(self):
        play = ready(2)
        play.deposit("more", ORIGIN + "/shop", usd(1))
        play.transfer("withdrawals", "less", ORIGIN + "/alice", usd(8000))
        who, payer = play.granted(EVERYTHING), play.granted([paying("/alice")])
        for number in (1, 2):
            play.incoming(who, "/shop", usd(1000))
            play.quote(who, "/alice", number)
            play.pay(payer, "/alice", number)
        self.assertEqual(play.step(play.now, 1, 0), ("funded",))
        return play

    def test_a_withdrawal_that_is_short_and_a_payment_that_waits(self):
        play = self.two_payments()
        self.balance(play, 1, "2000", "990")
        self.says(play.transfer("withdrawals", "w", ORIGIN + "/alice", usd(1500)), 409,
                  '{"error":{"available":"990","code":"short"}}')
        self.assertEqual(play.transfer("withdrawals", "w", ORIGIN + "/alice", usd(990)).status, 201)
        self.assertEqual(play.step(play.now, 2, 0), ("not_funded", 0, 1010))

    def test_one_step_asked_for_twice_moves_money_once(self):
        play = self.two_payments()
        self.assertEqual(play.step(play.now, 1, 1), ("sent",))
        self.assertEqual(play.step(play.now, 1, 1), ("stale", 2))
        self.assertEqual(self.progress(play, 1)[:3], ("500", "5", "500"))

    def test_a_quote_expires_to_the_millisecond(self):
        play = self.two_payments()
        play.now = T0 + 299999
        self.assertEqual(play.step(play.now, 2, 0), ("not_funded", 990, 1010))
        play.now = T0 + 300000
        self.assertEqual(play.step(play.now, 2, 0), ("failed", "quote_expired"))
        self.assertEqual(self.progress(play, 2), ("0", "0", "0", "FAILED", 1))
        self.assertEqual(play.step(play.now, 2, 1), ("ended",))

    def test_payer_is_payee(self):
        play = ready(1, lambda amount: 0)
        who = play.granted(EVERYTHING)
        play.incoming(who, "/alice")
        play.quote(who, "/alice", 1, debitAmount=usd(50))
        play.pay(play.granted([paying("/alice")]), "/alice", 1)
        self.assertEqual(self.steps(play, 1), ["funded", "completed"])
        self.assertEqual(self.progress(play, 1), ("50", "0", "50", "COMPLETED", 2))
        self.balance(play, 1, "10000", "10000")
        self.assertEqual(play.step(play.now, 1, 2), ("ended",))

    def test_a_quote_is_paid_once_from_its_address_by_its_client(self):
        play = self.two_payments()
        payer = play.granted([paying("/alice")])
        self.refuses(play.pay(payer, "/alice", 1), 409, "quote_used")
        self.refuses(play.pay(payer, "/alice", 9), 404, "not_found")
        shop = play.granted([paying("/shop")])
        self.refuses(play.pay(shop, "/shop", 1), 404, "not_found")
        other = play.granted([paying("/alice")], "https://b.example")
        self.refuses(play.pay(other, "/alice", 1), 403, "access_denied", rule="other_owner")
        who = play.granted(EVERYTHING)
        play.incoming(who, "/shop", usd(10))
        play.quote(who, "/alice", 3)
        play.now += 300000
        self.refuses(play.pay(payer, "/alice", 3), 409, "quote_expired")
        self.refuses(play.pay(payer, "/alice", 1), 409, "quote_used")

    def test_a_work_round_has_64_expiries_and_256_tasks_at_most(self):
        play = ready()
        who, payer = play.granted(EVERYTHING), play.granted([paying("/alice")])
        for _ in range(70):
            play.incoming(who, "/shop", expiresAt="2024-03-01T12:00:01Z")
        play.incoming(who, "/shop")
        for _ in range(260):
            play.pay_directly(payer, "/alice", 71, usd(2))
        self.assertEqual(play.work(play.now, 0), ([("step", number, 0) for number in range(1, 257)], 256))
        self.assertEqual(play.work(play.now, 256), ([("step", number, 0) for number in range(257, 261)], 0))
        expiries = [("expire", number) for number in range(1, 65)]
        self.assertEqual(play.work(T0 + 1000, 0), (expiries + [("step", number, 0) for number in range(1, 193)], 192))
        self.assertEqual(play.hooks_due(play.now), list(range(1, 17)))

    def test_work_has_expiries_before_steps_and_a_cursor(self):
        play = self.two_payments()
        self.assertEqual(play.work(play.now, 0), ([("step", 1, 1), ("step", 2, 0)], 0))
        self.assertEqual(play.work(play.now, 1), ([("step", 2, 0)], 0))
        tasks, _ = play.work(T0 + 2592000000, 0)
        self.assertEqual(tasks, [("expire", 1), ("expire", 2), ("step", 1, 1), ("step", 2, 0)])


class LimitsTest(Checks):
    """Limits and what was spent of them."""

    def two(self, **limits):
        """Two quotes to the payments 1 and 2, each of a debit of 60, and one who may pay within limits."""
        play = ready()
        who = play.granted(EVERYTHING)
        for number in (1, 2):
            play.incoming(who, "/shop")
            play.quote(who, "/alice", number, debitAmount=usd(60))
        return play, who, play.granted([paying("/alice", **limits)])

    def test_two_payments_against_one_limit_in_both_orders(self):
        for first, second in ((1, 2), (2, 1)):
            play, _, payer = self.two(debitAmount=usd(100))
            self.shows(play.pay(payer, "/alice", first), 201, grantSpentDebitAmount=usd(60))
            self.says(play.pay(payer, "/alice", second), 403,
                      '{"error":{"code":"access_denied","rule":"over_limit","spent":"60"}}')

    def test_a_limit_begins_anew_with_each_repetition(self):
        play, who, payer = self.two(debitAmount=usd(100), interval="R2/2024-03-01T12:00:00Z/PT1M")
        self.shows(play.pay(payer, "/alice", 1), 201, grantSpentDebitAmount=usd(60))
        play.now = T0 + 59999
        self.refuses(play.pay(payer, "/alice", 2), 403, "access_denied", rule="over_limit", spent="60")
        play.now = T0 + 60000
        self.shows(play.pay(payer, "/alice", 2), 201, grantSpentDebitAmount=usd(60))
        play.now = T0 + 120000
        play.quote(who, "/alice", 1, debitAmount=usd(60))
        self.refuses(play.pay(payer, "/alice", 3), 403, "access_denied", rule="outside_interval")

    def test_a_limit_that_has_not_begun(self):
        play, _, payer = self.two(interval="R/2024-03-01T12:00:01Z/PT1S")
        self.refuses(play.pay(payer, "/alice", 1), 403, "access_denied", rule="outside_interval")
        play.now += 1000
        reply = play.pay(payer, "/alice", 1)
        self.shows(reply, 201, grantSpentDebitAmount=None, grantSpentReceiveAmount=None)

    def test_a_limit_on_what_is_received(self):
        play, who, payer = self.two(receiveAmount=usd(100))
        play.quote(who, "/alice", 1, receiveAmount=usd(101))
        self.refuses(play.pay(payer, "/alice", 3), 403, "access_denied", rule="over_limit", spent="0")
        self.shows(play.pay(payer, "/alice", 1), 201, grantSpentReceiveAmount=usd(59))
        self.refuses(play.pay_directly(payer, "/alice", 1, usd(43)), 403, "access_denied", rule="over_limit", spent="59")
        self.shows(play.pay_directly(payer, "/alice", 1, usd(42)), 201, grantSpentReceiveAmount=usd(100))

    def test_a_limit_names_the_receiver(self):
        play, _, payer = self.two(receiver=row_url("incoming-payments", 1))
        self.refuses(play.pay(payer, "/alice", 2), 403, "access_denied", rule="limit_receiver")
        self.refuses(play.pay_directly(payer, "/alice", 2, usd(5)), 403, "access_denied", rule="limit_receiver")
        self.assertEqual(play.pay(payer, "/alice", 1).status, 201)

    def test_a_limit_says_nothing_of_what_is_not_there(self):
        play, _, payer = self.two(debitAmount=usd(100))
        self.refuses(play.pay_directly(payer, "/bob", 1, usd(101)), 404, "not_found")
        self.refuses(play.pay_directly(payer, "/alice", 9, usd(101)), 404, "not_found")
        self.refuses(play.pay(payer, "/alice", 9), 404, "not_found")
        play.add_asset("EUR", 2)
        payer = play.granted([paying("/alice", receiveAmount=usd(100))])
        self.refuses(play.pay_directly(payer, "/alice", 1, amount("EUR", 2, 1000)), 400, "asset_mismatch")
        self.refuses(play.pay_directly(payer, "/alice", 1, amount("JPY", 0, 1000)), 404, "not_found")

    def test_a_limit_in_another_asset(self):
        play, _, _ = self.two()
        play.add_asset("EUR", 2)
        for name in ("debitAmount", "receiveAmount"):
            payer = play.granted([paying("/alice", **{name: amount("EUR", 2, 100)})])
            self.refuses(play.pay(payer, "/alice", 1), 403, "access_denied", rule="limit_asset")


class DirectTest(Checks):
    """Payments without a quote: the purchase goes on."""

    def paid(self):
        play, _ = purchase()
        play.now, play.turn = T0 + 16000, 16
        self.assertEqual(play.incoming(INCOMING_TOKEN, "/shop").status, 201)
        play.now += 1000
        return play

    def test_a_payment_without_a_quote(self):
        play = self.paid()
        reply = play.pay_directly(PAYING_TOKEN, "/alice", 2, usd(505))
        self.shows(reply, 201, receiveAmount=usd(499), grantSpentDebitAmount=usd(1515), quoteId=None, debitAmount=usd(505))
        terms = play.payments[1].terms
        self.assertEqual((terms.fee, terms.source, play.payments[1].piece), (6, 499, 250))
        cursor = play.work_round(play.now)
        play.work_round(play.now + 1000, cursor)
        self.shows(play.get("/admin/outgoing-payments/" + row_id(3, 2)), 200, sent="250", fee="3", delivered="250")
        play.work_round(play.now + 2000, cursor)
        self.shows(play.get("/admin/outgoing-payments/" + row_id(3, 2)), 200, sent="499", fee="6", state="COMPLETED")
        self.balance(play, 1, "8485", "8485")
        self.balance(play, 2, "1499", "1499")
        self.shows(play.get("/admin/assets/USD/2"), 200, fees="16")

    def test_refusals(self):
        play = self.paid()
        self.refuses(play.pay_directly(PAYING_TOKEN, "/alice", 2, usd(4000)), 403, "access_denied", rule="over_limit",
                     spent="1010")
        self.refuses(play.pay_directly(PAYING_TOKEN, "/alice", 2, usd(1)), 400, "too_small")
        self.refuses(play.pay_directly(PAYING_TOKEN, "/alice", 1, usd(10)), 409, "receiver_closed")
        self.refuses(play.pay_directly(PAYING_TOKEN, "/alice", 9, usd(10)), 404, "not_found")
        both = {"incomingPayment": row_url("incoming-payments", 2)}
        self.refuses(play.pay(PAYING_TOKEN, "/alice", 1, **both), 400, "bad_field", name="incomingPayment")
        self.refuses(play.pay(PAYING_TOKEN, "/alice", 1, debitAmount=usd(1)), 400, "bad_field", name="debitAmount")
        body = {"walletAddress": ORIGIN + "/alice"}
        self.refuses(play.post("/outgoing-payments", body, PAYING_TOKEN), 400, "bad_field", name="quoteId")
        self.refuses(play.post("/outgoing-payments", dict(body, **both), PAYING_TOKEN), 400, "bad_field", name="debitAmount")

    def test_three_payments_of_a_budget(self):
        play = self.paid()
        for debit, spent in ((350, 1360), (210, 1570), (140, 1710)):
            reply = play.pay_directly(PAYING_TOKEN, "/alice", 2, usd(debit), metadata={"page": "news"})
            self.shows(reply, 201, grantSpentDebitAmount=usd(spent))


class EventsTest(Checks):
    """Attempts to tell events, and page feeds."""

    def test_an_attempt_that_failed_is_made_again_after_ten_seconds(self):
        play, _ = purchase()
        play.now += 1000
        self.assertEqual(play.hooks_due(play.now), [1, 2, 3, 4])
        self.assertEqual(play.attempt(play.now, 1, 0), ("noted",))
        self.assertEqual(play.hooks_due(play.now + 9999), [2, 3, 4])
        self.assertEqual(play.attempt(play.now + 9999, 1, 200), ("not_due",))
        self.assertEqual(play.attempt(play.now + 10000, 1, 200), ("noted",))
        self.assertEqual(play.hooks_due(LAST), [2, 3, 4])
        self.assertEqual(play.attempt(LAST, 1, 200), ("not_due",))

    def test_ten_attempts_are_made_and_the_last_wait_is_2560_seconds(self):
        play, _ = purchase()
        at, waits = play.now, []
        self.assertEqual(play.attempt(at, 1, 500), ("noted",))
        for n in range(1, 10):
            wait = 10000 * 2 ** (n - 1)
            self.assertEqual(play.attempt(at + wait - 1, 1, 500), ("not_due",))
            at += wait
            self.assertEqual(play.attempt(at, 1, 500), ("noted",))
            waits.append(wait)
        self.assertEqual((waits[0], waits[1], waits[8]), (10000, 20000, 2560000))
        self.assertEqual(play.attempt(LAST, 1, 500), ("not_due",))

    def test_300_does_not_end_the_attempts(self):
        play, _ = purchase()
        self.assertEqual(play.attempt(play.now, 1, 300), ("noted",))
        self.assertEqual(play.attempt(play.now + 10000, 1, 299), ("noted",))
        self.assertEqual(play.attempt(LAST, 1, 200), ("not_due",))

    def test_a_page_is_read_as_a_form_has_it(self):
        play, _ = purchase({"page": "a page"})
        payer, target = play.granted([paying("/alice", "list")]), "/monetization?wallet-address=$wallet.example/alice&"
        for page in ("page=a+page", "page=a%20page", "x&%70age=a%20page&page=other"):
            self.assertEqual(len(play.get(target + page, payer).body["events"]), 1, page)
        for page in ("page=a%2Bpage", "page=a%page"):
            self.says(play.get(target + page, payer), 200, '{"events":[]}')

    def test_204_ends_the_attempts(self):
        play, _ = purchase()
        self.assertEqual(play.attempt(play.now, 1, 204), ("noted",))
        self.assertEqual(play.attempt(LAST, 1, 200), ("not_due",))

    def test_feed_of_three_payments(self):
        play, _ = purchase({"page": "news"})
        who, payer = play.granted(EVERYTHING), play.granted([paying("/alice", "create", "list")])
        play.incoming(who, "/shop")
        play.pay_directly(payer, "/alice", 2, usd(91), metadata={"page": "news"})
        play.pay_directly(payer, "/alice", 2, usd(91), metadata={"page": "news"})
        play.pay_directly(payer, "/alice", 2, usd(91), metadata={"page": "blog"})
        self.assertEqual([play.step(play.now, 2, step)[0] for step in (0, 1)], ["funded", "sent"])
        for number in (2, 3):
            self.assertEqual(play.post("/admin/outgoing-payments/%s/cancel" % row_id(3, number)).status, 200)
        other = play.granted([paying("/alice", "list-all")], "https://b.example")
        target = "/monetization?wallet-address=https%3A%2F%2Fwallet.example%2Falice&page=news"
        events = play.get(target, payer).body["events"]
        self.assertEqual([event["amountSent"] for event in events], [
            {"currency": "USD", "value": "10.00"}, {"currency": "USD", "value": "0.45"}])
        self.says(play.get(target, other), 200, '{"events":[]}')
        self.refuses(play.get(target + "a" * 61, payer), 400, "bad_field", name="page")


class LawsTest(Checks):
    """Wrong wallets are refused by the laws."""

    def refused(self, law, name, wrong, play):
        with mock.patch(name, wrong), self.assertRaisesRegex(Broken, law):
            play()

    def purchase_of(self, debit, num, den, pieces):
        play, who = exchange(num, den, pieces, 10000)
        play.incoming(who, "/eva")
        play.quote(who, "/alice", 1, debitAmount=usd(debit))
        play.pay(play.granted([paying("/alice", debitAmount=usd(debit))]), "/alice", 1)
        for step in range(pieces + 1):
            play.step(play.now, 1, step)

    def test_each_piece_floored_by_itself(self):
        def growth(payment):
            sent = min(payment.terms.source - payment.sent, payment.piece)
            fee = payment.terms.fee * (payment.sent + sent) // payment.terms.source - payment.fee
            return sent, fee, floor_mul(sent, payment.terms.num, payment.terms.den)
        self.refused("the payee got the floor", "model_history.Payment.growth", growth,
                     lambda: self.purchase_of(102, 3, 7, 7))

    def test_the_whole_fee_with_the_last_piece(self):
        def growth(payment):
            sent = min(payment.terms.source, payment.sent + payment.piece)
            delivered = floor_mul(sent, payment.terms.num, payment.terms.den)
            fee = payment.terms.fee if sent == payment.terms.source else 0
            return sent - payment.sent, fee, delivered - payment.delivered
        self.refused("the payer lost", "model_history.Payment.growth", growth, lambda: self.purchase_of(102, 3, 7, 7))

    def test_a_pool_that_goes_below_zero(self):
        def play():
            play, who = exchange(1, 1, 1, 10)
            play.incoming(who, "/eva")
            play.quote(who, "/alice", 1, debitAmount=usd(50))
            play.pay(play.granted([paying("/alice")]), "/alice", 1)
            play.step(play.now, 1, 0)
            play.step(play.now, 1, 1)
        self.refused("no account is overdrawn", "model.Wallet.available_on", lambda wallet, account: 10 ** 18, play)

    def test_a_withdrawal_of_what_is_held(self):
        def play():
            wallet = LimitsTest().two()[0]
            payer = wallet.granted([paying("/alice")])
            wallet.pay(payer, "/alice", 1)
            wallet.step(wallet.now, 1, 0)
            wallet.transfer("withdrawals", "w", ORIGIN + "/alice", usd(10000))
        self.refused("no account is overdrawn", "model.Wallet.held_on", lambda wallet, account: 0, play)

    def test_spending_that_is_counted_at_the_end(self):
        def weight(payment, of_debit):
            return payment.terms.debit if payment.state == "COMPLETED" else 0

        def play():
            wallet, _, payer = LimitsTest().two(debitAmount=usd(100))
            wallet.pay(payer, "/alice", 1)
            wallet.pay(payer, "/alice", 2)
        self.refused("spending is capped", "model_history.Payment.weight", weight, play)

    def test_a_step_that_is_taken_twice(self):
        play, _ = purchase()
        with self.assertRaisesRegex(Broken, "no two acts take one step"):
            play.wallet.laws.take(play.entries[-1], [])

    def test_movements_that_do_not_sum_to_zero(self):
        play = ready()
        with self.assertRaisesRegex(Broken, "assets sum to zero"):
            play.wallet.laws.take(play.entries[-1], [(("wallet", 1), 1)])

    def test_a_total_past_the_top(self):
        play = ready()
        moved = [(("pool", 1), 10 ** 18), (("outside", 1), -10 ** 18)]
        with self.assertRaisesRegex(Broken, "no total passes the top"):
            play.wallet.laws.take(play.entries[-1], moved)


if __name__ == "__main__":
    unittest.main()
