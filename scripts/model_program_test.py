"""scripts/play_program.py, tried with a stand-in for the program that is made of the model. Use: make model"""
import os
import sys
import tempfile
import unittest

from play_program import Differs, play_ahead, play_live

STAND_IN = [sys.executable, "-B", os.path.join(os.path.dirname(os.path.abspath(__file__)), "model_program.py")]


class ProgramTest(unittest.TestCase):
    """A program that is right is told from those that are wrong."""

    def play(self, how, *rest, kind=()):
        with tempfile.TemporaryDirectory() as folder:
            return how(STAND_IN + list(kind), 600, "1", os.path.join(folder, "journal"), *rest)

    def test_a_right_program_is_found_right_request_by_request(self):
        codes, acts = self.play(play_live)
        self.assertEqual(sum(codes.values()), 600)
        self.assertGreater(acts, 200)

    def test_a_work_round_that_is_not_committed_is_found(self):
        with self.assertRaisesRegex(Differs, "work round"):
            self.play(play_live, kind=["forgets"])

    def test_a_route_that_is_not_answered_is_found(self):
        with self.assertRaisesRegex(Differs, "reply to POST /admin/origin"):
            self.play(play_live, kind=["add_asset"])

    def test_a_program_that_answers_one_route_is_found_right_where_that_is_told(self):
        codes, acts = self.play(play_ahead, ["add_asset"], kind=["add_asset"])
        self.assertEqual((sum(codes.values()), acts), (600, codes[201]))
        with self.assertRaisesRegex(Differs, "reply"):
            self.play(play_ahead, ["add_asset", "set_origin"], kind=["add_asset"])


if __name__ == "__main__":
    unittest.main()
