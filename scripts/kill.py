#!/usr/bin/env python3
"""Kills `wallet apply` (SIGKILL) at random moments while it adds assets, and opens the journal again each time: every asset
whose reply came is there, and the journal spells a legal history. Not part of the gate. Use: scripts/kill.py [COUNT]"""
import json
import os
import random
import signal
import subprocess
import sys
import tempfile
import threading

WALLET = os.path.join(os.path.dirname(os.path.abspath(__file__)), "..", "bin", "wallet")


def request(code):
    body = json.dumps({"assetCode": code, "assetScale": 2}, separators=(",", ":"))
    return f"POST /admin/assets HTTP/1.1\r\nhost: x\r\ncontent-length: {len(body)}\r\n\r\n{body}".encode()


def code(n):
    letters = "ABCDEFGHIJKLMNOPQRSTUVWXYZ"
    return "".join(letters[n // 26**k % 26] for k in (4, 3, 2, 1, 0))


def killed_run(journal, first, wait):
    """Sends many requests, kills the program after a while, and returns the codes whose reply 201 came."""
    sent = [code(first + n) for n in range(2000)]
    with tempfile.TemporaryFile() as stream:
        stream.write(b"".join(request(c) for c in sent))
        stream.seek(0)
        program = subprocess.Popen([WALLET, "apply", journal], stdin=stream, stdout=subprocess.PIPE)
        killer = threading.Timer(wait, program.kill)
        killer.start()
        output, _ = program.communicate()
        killer.cancel()
    return sent[: output.count(b"HTTP/1.1 201 Created")], program.returncode


def main():
    count = int(sys.argv[1]) if len(sys.argv) > 1 else 100
    random.seed(1)
    acknowledged, killed = [], 0
    with tempfile.TemporaryDirectory() as folder:
        journal = os.path.join(folder, "journal")
        for run in range(count):
            new, status = killed_run(journal, 2000 * run, random.uniform(0.0, 0.5))
            killed += status == -signal.SIGKILL
            acknowledged += new
            again = b"".join(request(c) for c in acknowledged[-50:])
            opened = subprocess.run([WALLET, "apply", journal], input=again, stdout=subprocess.PIPE, check=False)
            there = opened.stdout.count(b"already_exists")
            if opened.returncode != 0 or there != len(acknowledged[-50:]):
                print(f"FAILED in run {run}: status {opened.returncode}, {there} of {len(acknowledged[-50:])} are there")
                return 1
        everything = b"".join(request(c) for c in acknowledged)
        opened = subprocess.run([WALLET, "apply", journal], input=everything, stdout=subprocess.PIPE, check=False)
        there = opened.stdout.count(b"already_exists")
        print(f"{count} runs, {killed} killed, {len(acknowledged)} acknowledged assets, {there} there at the end")
        return 0 if opened.returncode == 0 and there == len(acknowledged) else 1


if __name__ == "__main__":
    sys.exit(main())
