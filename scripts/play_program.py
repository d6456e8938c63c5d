#!/usr/bin/env python3
"""Plays random requests against `wallet apply` and compares each reply, byte for byte, and each act with those of the model
of scripts/model.py. Not part of the gate.

Use: scripts/play_program.py [NUMBER] [--seed SEED] [--program WORDS] [--built ROUTES], of 2000 requests, the seed 1 and
the program bin/wallet where they are not given.

The program has its own clock and its own random bytes. What it drew, and at which moment it acted, is read from the acts in
its journal; two milliseconds lie between two requests, so each round of the journal belongs to one of them.

With --built, a list of routes with commas by the names of model_requests.py (as add_asset), a request of any other route is
expected to be answered 404 where it is understood. The requests are then made ahead, as random_tasks.py does it, and what
the named routes reply must not depend on the clock or the words."""
import argparse
import os
import shlex
import subprocess
import sys
import tempfile
import time

from model import Wallet
from model_history import IncomingExpired, OutgoingCompleted, OutgoingFailed, OutgoingFunded, OutgoingSent
from model_http import Reply, body_data, read_request, request_data
from model_journal import HEADER, read_round
from model_requests import NoMethod, Refused, find_route
from random_tasks import Player, play_stream

PROGRAM = os.path.join(os.path.dirname(os.path.abspath(__file__)), "..", "bin", "wallet")
WORK = (IncomingExpired, OutgoingFunded, OutgoingSent, OutgoingCompleted)
FORMS = ("bad_json", "bad_field", "invalid_request")


class Differs(Exception):
    """The program and the model are not of one mind."""


def hold_same(what, program, model):
    if program != model:
        raise Differs("%s\nprogram: %s\nmodel:   %s" % (what, program, model))


def milliseconds():
    return time.time_ns() // 1000000


def read_reply(source):
    """One reply as it comes: its head, and as many bytes as that says."""
    head = b""
    while not head.endswith(b"\r\n\r\n"):
        piece = source.read(1)
        if not piece:
            raise Differs("the program ended within a reply: %r" % head)
        head += piece
    lengths = [line[16:] for line in head.split(b"\r\n") if line.startswith(b"content-length: ")]
    return head + source.read(int(lengths[0]) if lengths else 0)


class Frames:
    """The rounds of a journal, as they come to it."""

    def __init__(self, name):
        self.name, self.gate = name, len(HEADER)

    def more(self):
        """The rounds that were committed since they were last asked for."""
        with open(self.name, "rb") as file:
            file.seek(self.gate)
            data = file.read()
        rounds, gate = [], 0
        while data[gate:gate + 1] == b"\1":
            length = int.from_bytes(data[gate + 1:gate + 5], "big")
            rounds.append(read_round(data[gate + 5:gate + 5 + length]))
            gate += 5 + length
        self.gate += gate
        return rounds


def is_work(entry):
    return isinstance(entry.act, WORK) or (isinstance(entry.act, OutgoingFailed) and entry.act.reason != "cancelled")


class Match:
    """The program and the model, request by request."""

    def __init__(self, words, journal, seed):
        self.program = subprocess.Popen(words + ["apply", journal], stdin=subprocess.PIPE, stdout=subprocess.PIPE)
        self.frames, self.player, self.cursor = Frames(journal), Player(seed), 0
        self.model = self.player.wallet

    def play(self):
        time.sleep(0.002)
        sent = self.player.clock = milliseconds()
        asked = self.player.make(self.player.draws.weighted(self.player.WEIGHTS))
        self.program.stdin.write(request_data(asked.method, asked.target, body_data(asked.body), asked.who))
        self.program.stdin.flush()
        reply, rounds = read_reply(self.program.stdout), self.frames.more()
        while rounds and rounds[0][0].at < sent:
            self.work(rounds.pop(0))
        acts = rounds.pop(0) if rounds and not is_work(rounds[0][0]) else []
        self.answer(asked, acts, reply)
        for entries in rounds:
            self.work(entries)

    def answer(self, asked, acts, reply):
        """The model's answer, with the moment and the word of the act that the program made, if it made one."""
        count, word = len(self.model.entries), bytes(16)
        if acts:
            self.player.clock, word = acts[0].at, getattr(acts[0].act, "word", word)
        expected = self.player.play_request(asked, word)
        hold_same("reply to %s %s" % (asked.method, asked.target), reply, expected.data())
        hold_same("act of %s %s" % (asked.method, asked.target), acts, self.model.entries[count:])

    def work(self, entries):
        """A work round, at the moment at which the program did it."""
        count = len(self.model.entries)
        self.cursor = self.model.work_round(entries[0].at, self.cursor)
        hold_same("work round", entries, self.model.entries[count:])

    def finish(self):
        self.program.stdin.close()
        hold_same("exit status", self.program.wait(), 0)
        for entries in self.frames.more():
            self.work(entries)


def play_live(words, number, seed, journal):
    match = Match(words, journal, seed)
    with match.program:
        try:
            for _ in range(number):
                match.play()
            match.finish()
        finally:
            match.program.kill()
    return match.player.codes, len(match.model.entries)


def expected_reply(wallet, built, method, target, body, who):
    """What a program that answers some routes alone replies."""
    try:
        is_built = find_route(method, target.partition("?")[0])[0] in built
    except (Refused, NoMethod):
        is_built = True
    reply = (wallet if is_built else Wallet()).ask(0, bytes(16), method, target, body, who)
    if is_built or (reply.status >= 400 and reply.body["error"]["code"] in FORMS):
        return reply
    return Reply(404, {"error": {"code": "not_found"}}, None, wallet.origin)


def play_ahead(words, number, seed, journal, built):
    name = journal + ".requests"
    play_stream(Player(seed), number, name)
    with open(name, "rb") as requests:
        program = subprocess.run(words + ["apply", journal], stdin=requests, stdout=subprocess.PIPE, check=False)
    hold_same("exit status", program.returncode, 0)
    wallet, codes, replies = Wallet(), {}, program.stdout
    with open(name, "rb") as file:
        data = file.read()
    for place in range(number):
        *request, data = read_request(data)
        expected = expected_reply(wallet, built, *request)
        length = len(expected.data())
        hold_same("reply %d, to %s %s" % (place, request[0], request[1]), replies[:length], expected.data())
        replies = replies[length:]
        code = expected.body["error"]["code"] if expected.status >= 400 else expected.status
        codes[code] = codes.get(code, 0) + 1
    hold_same("more replies", replies, b"")
    return codes, len(wallet.entries)


def main():
    words = argparse.ArgumentParser()
    words.add_argument("number", nargs="?", type=int, default=2000)
    words.add_argument("--seed", default="1")
    words.add_argument("--program", default=shlex.quote(PROGRAM))
    words.add_argument("--built")
    words = words.parse_args()
    program = shlex.split(words.program)
    with tempfile.TemporaryDirectory() as folder:
        journal = os.path.join(folder, "journal")
        try:
            if words.built is None:
                codes, acts = play_live(program, words.number, words.seed, journal)
            else:
                codes, acts = play_ahead(program, words.number, words.seed, journal, words.built.split(","))
        except Differs as reason:
            sys.exit(str(reason))
    counts = ", ".join("%s %d" % pair for pair in sorted(codes.items(), key=str))
    print("%d requests, %d acts, all as the model has them: %s" % (words.number, acts, counts))


if __name__ == "__main__":
    main()
