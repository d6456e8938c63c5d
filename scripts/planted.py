#!/usr/bin/env python3
"""Wrong definitions are refused. Each plant changes one definition of op_model in a copy of the crates, and `rt check` of
the crate that is named has to refuse it at the worked row that is named. Prints a line for each, and fails where one is
not refused there. Not part of the gate: a plant takes half a minute, the last one some minutes. Use: scripts/planted.py
[NUMBER..], all six where none is given."""
import os
import shutil
import subprocess
import sys
import tempfile

TOP = os.path.join(os.path.dirname(os.path.abspath(__file__)), "..")


SPECS = "op_model/specs/"


class Plant:
    """What a wrong definition says, the texts that it changes in a file of specs, and the crate and row that refuse it."""

    def __init__(self, words, file, changes, crate, row):
        self.words, self.file, self.changes, self.crate, self.row = words, SPECS + file, changes, crate, row


PLANTS = [
    Plant(
        "the whole fee is taken with the last piece, so none from a payment that fails", "Payments.antt",
        [("fee_after terms n = share terms.fee (sent_after terms n) terms.source",
          "fee_after terms n = if sent_after terms n == terms.source then terms.fee else 0")],
        "op_model", "piece_4"),
    Plant(
        "each piece is floored by itself", "Payments.antt",
        [("delivered_after terms n = floor_mul (sent_after terms n) terms.num terms.den",
          "delivered_after terms zero = 0\n"
          "delivered_after terms (suc n) = delivered_after terms n"
          " + floor_mul (sent_after terms (suc n) - sent_after terms n) terms.num terms.den"),
         ("Prelude.{ℕ, ◌-◌,", "Prelude.{ℕ, zero, suc, ◌+◌, ◌-◌,")],
        "op_model", "piece_3"),
    Plant(
        "spending is counted at the end of a payment", "Grants.antt",
        [("debit_weight row = if is_failed row.state then row.sent + row.fee else row.terms.debit",
          "debit_weight row = if is_failed row.state then row.sent + row.fee"
          " else (if row.sent == row.terms.source then row.terms.debit else 0)")],
        "op_model", "spent_before"),
    Plant(
        "a withdrawal looks at what is posted, and not at what is available", "AdminAnswers.antt",
        [("refuse_if (not deposit && nat_lt (available history account) amount.value)",
          "refuse_if (not deposit && nat_lt (posted history account) amount.value)"),
         ("total, available}", "total, available, posted}")],
        "op_model", "short"),
    Plant(
        "a step with an old number acts again", "Steps.antt",
        [("if k == row.step then", "if nat_le k row.step then")],
        "op_model", "stale"),
    Plant(
        "the target's pool may go below zero", "Steps.antt",
        [("nat_lt there need then Waiting (NoLiquidity there need)", "nat_lt there 0 then Waiting (NoLiquidity there need)")],
        "op_legal", "uncovered_piece_refused"),
]


def planted(text, changes):
    """The text with each change, whose old text stands in it once."""
    for old, new in changes:
        if text.count(old) != 1:
            sys.exit(f"{old!r} is there {text.count(old)} times, and not once")
        text = text.replace(old, new)
    return text


def is_refused(crates, plant):
    """Whether the check of the plant's crate fails, and at its row. Afterwards the file is as it was."""
    path = os.path.join(crates, plant.file)
    with open(path, encoding="utf-8") as file:
        kept = file.read()
    with open(path, "w", encoding="utf-8") as file:
        file.write(planted(kept, plant.changes))
    try:
        run = subprocess.run(["rt", "check"], cwd=os.path.join(crates, plant.crate), capture_output=True, text=True, check=False)
    finally:
        with open(path, "w", encoding="utf-8") as file:
            file.write(kept)
    return run.returncode == 1 and f"error: `{plant.row}`" in run.stdout + run.stderr


def main(numbers):
    failed = False
    with tempfile.TemporaryDirectory() as folder:
        for name in ("crates.txt", "HANDLES"):
            shutil.copy(os.path.join(TOP, name), folder)
        crates = os.path.join(folder, "crates")
        shutil.copytree(os.path.join(TOP, "crates"), crates, ignore=shutil.ignore_patterns("out"))
        for number in numbers:
            plant = PLANTS[number - 1]
            refused = is_refused(crates, plant)
            failed = failed or not refused
            print(f"{number}. {plant.words}: {'refused' if refused else 'NOT REFUSED'} by {plant.row} of {plant.crate}", flush=True)
    return 1 if failed else 0


if __name__ == "__main__":
    sys.exit(main([int(word) for word in sys.argv[1:]] or range(1, len(PLANTS) + 1)))
