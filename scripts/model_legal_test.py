"""Legal histories of the model of scripts/model.py: the purchase, and acts that may not follow it. Use: make model"""
import unittest

import model_history as acted
from model_checks import purchase
from model_legal import is_legal, legal_part
from model_play import T0

WORD = bytes(16)


class LegalTest(unittest.TestCase):
    """What may follow the front of the purchase; its acts are numbered from 1."""

    def front(self, count):
        return purchase()[0].entries[:count]

    def follows(self, count, act, at=None):
        entries = self.front(count)
        return is_legal(entries + [acted.Entry(entries[-1].at if at is None else at, act)])

    def test_the_purchase_is_legal_and_so_is_every_front(self):
        entries = purchase()[0].entries
        self.assertEqual((len(entries), legal_part(entries)), (15, 15))
        for count in range(15):
            self.assertTrue(is_legal(entries[:count]))

    def test_moments_never_fall_and_end_at_the_last(self):
        act = acted.Deposited("d", ("pool", 1), 5)
        self.assertTrue(self.follows(15, act))
        self.assertTrue(self.follows(15, act, 253402300799999))
        self.assertFalse(self.follows(15, act, T0))
        self.assertFalse(self.follows(15, act, 253402300800000))

    def test_texts_have_their_form(self):
        for act in (acted.AssetAdded("usd", 2, 1), acted.AssetAdded("EUR", 19, 1), acted.AssetAdded("EUR", 2, 0),
                    acted.AddressAdded("/admin", 1, None), acted.AddressAdded("/a", 1, "a" * 129),
                    acted.Deposited("", ("pool", 1), 5), acted.OriginSet("https://a")):
            self.assertFalse(self.follows(15, act), act)
        self.assertTrue(self.follows(15, acted.AddressAdded("/a", 1, "a" * 128)))

    def test_what_an_act_names_is_there(self):
        for act in (acted.AddressAdded("/a", 2, None), acted.Deposited("d", ("wallet", 3), 5),
                    acted.Deposited("d", ("pool", 0), 5), acted.GrantAccepted(9, WORD), acted.OutgoingFunded(2, 0),
                    acted.Attempted(5, 200), acted.IncomingExpired(2), acted.IncomingCompleted(9, 1)):
            self.assertFalse(self.follows(15, act), act)
        self.assertTrue(self.follows(15, acted.Attempted(4, 200)))

    def test_a_recorded_fee_is_within_the_amount_on_which_the_rule_was_asked(self):
        quote = self.front(8)[7].act._replace
        self.assertTrue(self.follows(7, quote(fee=1000, debit=2000)))
        self.assertFalse(self.follows(7, quote(fee=1001, debit=2001)))
        self.assertFalse(self.follows(7, quote(fee=1000, debit=1999)))
        self.assertFalse(self.follows(7, quote(receive=999)))
        self.assertFalse(self.follows(7, quote(asked=999)))

    def test_an_expiry_is_not_past_and_metadata_is_its_printed_form(self):
        made = self.front(6)[5].act
        self.assertEqual(type(made).__name__, "IncomingMade")
        at = T0 + 6000
        self.assertFalse(self.follows(6, made._replace(expiry=at), at))
        self.assertTrue(self.follows(6, made._replace(expiry=at + 1), at))
        self.assertTrue(self.follows(6, made._replace(metadata='{"a":2,"b":1}'), at))
        self.assertFalse(self.follows(6, made._replace(metadata='{"b":1,"a":2}'), at))

    def test_a_grant_that_was_accepted_is_not_polled(self):
        self.assertEqual(type(self.front(10)[9].act).__name__, "GrantAccepted")
        self.assertFalse(self.follows(10, acted.GrantPolled(3), T0 + 100000))
        self.assertTrue(self.follows(9, acted.GrantPolled(3), T0 + 100000))
        self.assertFalse(self.follows(9, acted.GrantPolled(3), T0 + 9999))
        self.assertFalse(self.follows(9, acted.GrantContinued(3, WORD), T0 + 100000))

    def test_steps_have_their_number_and_their_kind(self):
        self.assertTrue(self.follows(13, acted.OutgoingSent(1, 1)))
        for act in (acted.OutgoingSent(1, 2), acted.OutgoingSent(1, 0), acted.OutgoingCompleted(1, 1),
                    acted.OutgoingFunded(1, 1), acted.OutgoingFailed(1, 1, "receiver_closed")):
            self.assertFalse(self.follows(13, act), act)
        self.assertTrue(self.follows(13, acted.OutgoingFailed(1, 1, "cancelled")))
        self.assertFalse(self.follows(13, acted.OutgoingFailed(1, 2, "cancelled")))

    def test_money_that_is_held_is_not_withdrawn(self):
        self.assertTrue(self.follows(13, acted.Withdrawn("w", ("wallet", 1), 8990)))
        self.assertFalse(self.follows(13, acted.Withdrawn("w", ("wallet", 1), 8991)))


if __name__ == "__main__":
    unittest.main()
