#!/usr/bin/env python3
"""Looks at a journal as the documents have it: reads its rounds (docs/FORMATS.md), asks of each act whether it may follow
those before it, with the fee of the program's rule, and looks at the six laws behind it (docs/LAWS.md). Prints the summary
of the history, or where it is not legal. Use: scripts/check_journal.py JOURNAL"""
import sys

from model import one_percent
from model_journal import NoJournal, read_journal
from model_laws import Broken, CheckedWallet
from model_legal import base_of, legal_part


def fault_of(rounds):
    """What is wrong with a history, or None; and the wallet that it makes."""
    entries, wallet = [entry for entries in rounds for entry in entries], CheckedWallet()
    place = legal_part(entries)
    if place < len(entries):
        return "act %d is not legal: %s" % (place + 1, entries[place]), wallet
    for place, entry in enumerate(entries, 1):
        if getattr(entry.act, "fee", 0) != one_percent(base_of(entry.act)):
            return "act %d has another fee: %s" % (place, entry), wallet
        try:
            wallet.add(*entry)
        except Broken as law:
            return str(law), wallet
    return None, wallet


def main():
    if len(sys.argv) != 2:
        sys.exit(__doc__)
    with open(sys.argv[1], "rb") as file:
        data = file.read()
    try:
        fault, wallet = fault_of(read_journal(data))
    except NoJournal as reason:
        sys.exit("no journal: %s" % reason)
    if fault:
        sys.exit(fault)
    print(wallet.audit(), end="")


if __name__ == "__main__":
    main()
