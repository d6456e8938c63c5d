#!/usr/bin/env python3
"""A stand-in for the program, so that play_program.py can be tried without it. `model_program.py [KIND] apply JOURNAL`
reads requests in the form of model_http.py from standard input, answers them by the model with the system's clock and
random bytes, and keeps a fresh journal. KIND makes it a wrong program (`forgets`: a work round is not always committed), or
one that answers some routes alone (their names, with commas). Part of scripts/model.py."""
import os
import sys
import time

from model import Wallet
from model_history import OutgoingFunded
from model_http import read_request
from model_journal import HEADER, round_data
from play_program import expected_reply


def read_one(source):
    """The bytes of the next request, or none at the end."""
    head = b""
    while not head.endswith(b"\r\n\r\n"):
        piece = source.read(1)
        if not piece:
            return b""
        head += piece
    lengths = [line[16:] for line in head.split(b"\r\n") if line.startswith(b"content-length: ")]
    return head + source.read(int(lengths[0]) if lengths else 0)


def commit(journal, entries):
    if entries:
        payload = round_data(entries)
        journal.write(len(payload).to_bytes(4, "big") + payload + b"\0")
        journal.flush()
        end = journal.tell()
        journal.seek(end - len(payload) - 6)
        journal.write(b"\1")
        journal.flush()
        journal.seek(end)


def apply(name, kind=""):
    wallet, cursor = Wallet(), 0
    with open(name, "wb") as journal:
        journal.write(HEADER + b"\0")
        journal.flush()
        while data := read_one(sys.stdin.buffer):
            method, target, body, who, _ = read_request(data)
            clock, begin = time.time_ns() // 1000000, len(wallet.entries)
            if kind in ("", "forgets"):
                reply = wallet.ask(clock, os.urandom(16), method, target, body, who)
            else:
                reply = expected_reply(wallet, kind.split(","), method, target, body, who)
            commit(journal, wallet.entries[begin:])
            sys.stdout.buffer.write(reply.data())
            sys.stdout.buffer.flush()
            begin = len(wallet.entries)
            cursor = wallet.work_round(clock, cursor)
            if kind != "forgets" or not any(isinstance(entry.act, OutgoingFunded) for entry in wallet.entries[begin:]):
                commit(journal, wallet.entries[begin:])


if __name__ == "__main__":
    apply(sys.argv[-1], *sys.argv[1:-2])
