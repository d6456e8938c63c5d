#!/usr/bin/env python3
"""What requests on a journal on disk cost. `wallet apply` adds COUNT assets, each by a request of its own, so that each is
committed before its reply; then scripts/append.c makes the same commits of the same bytes with nothing around them. Then it
reads COUNT requests for a quote, and COUNT for a grant, which it understands and answers 404 so far: that is what reading a
request, understanding it, proving who asks, and printing a reply cost without a commit. Fails where a reply is not the one
that is due, where the journal does not open again, or where the two made different bytes or other calls than four a commit.
Not part of the gate. Use: scripts/bench.py [COUNT [FOLDER]], 20000 where it is left out."""
import os
import subprocess
import sys
import tempfile
import time

HERE = os.path.dirname(os.path.abspath(__file__))
WALLET = os.path.join(HERE, "..", "bin", "wallet")
LETTERS = "ABCDEFGHIJKLMNOPQRSTUVWXYZ"
SCALES = 19


# The target and the body of a request for a quote and for a grant, as docs/API.md shows them.
QUOTE = (
    "/quotes",
    '{"walletAddress":"https://wallet.example/alice","receiver":"https://wallet.example/incoming-payments/'
    '00000001-0000-8000-8000-000000000001","method":"ilp"}',
)
GRANT = (
    "/grant",
    '{"access_token":{"access":[{"type":"outgoing-payment","actions":["create","read"],"identifier":'
    '"https://wallet.example/alice","limits":{"debitAmount":{"assetCode":"USD","assetScale":2,"value":"5000"},'
    '"interval":"R12/2024-03-01T00:00:00Z/P1M"}}]},"client":"https://wallet.example/shop","interact":{"start":["redirect"],'
    '"finish":{"method":"redirect","uri":"https://shop.example/done","nonce":"n"}}}',
)


class Failed(Exception):
    """What the bench found wrong."""


def must(holds, words):
    if not holds:
        raise Failed(words)


def asset(n):
    """Asset n as members of JSON: a code of three letters, and a scale from 0 to 18."""
    code = "".join(LETTERS[n // SCALES // 26**k % 26] for k in (2, 1, 0))
    return f'"assetCode":"{code}","assetScale":{n % SCALES}'


def request(n):
    body = "{" + asset(n) + "}"
    return f"POST /admin/assets HTTP/1.1\r\nhost: wallet.example\r\ncontent-length: {len(body)}\r\n\r\n{body}"


def reply(n):
    body = "{" + asset(n) + ',"pieces":1}'
    fields = f"connection: close\r\ncontent-length: {len(body)}\r\ncontent-type: application/json\r\n"
    return f"HTTP/1.1 201 Created\r\n{fields}\r\n{body}"


def apply(journal, requests, environment=None):
    """Runs the wallet on a file of requests: its seconds, its status and its output."""
    with open(requests, "rb") as source, tempfile.TemporaryFile(dir=os.path.dirname(requests)) as sink:
        start = time.perf_counter()
        status = subprocess.run([WALLET, "apply", journal], stdin=source, stdout=sink, env=environment, check=False).returncode
        seconds = time.perf_counter() - start
        sink.seek(0)
        return seconds, status, sink.read()


def run_wallet(folder, count):
    """The wallet on a fresh journal: its seconds, those in fdatasync, and its most memory in kB. Each reply is looked at.
    There are four calls a commit, beside a sync, a write and a sync at the opening."""
    library, report = os.path.join(folder, "syncs.so"), os.path.join(folder, "report")
    subprocess.run(["cc", "-O2", "-shared", "-fPIC", "-o", library, os.path.join(HERE, "syncs.c")], check=True)
    watched = {**os.environ, "LD_PRELOAD": library, "SYNCS": report}
    seconds, status, output = apply(os.path.join(folder, "journal"), os.path.join(folder, "requests"), watched)
    must(status == 0, f"status {status}")
    must(output == "".join(map(reply, range(count))).encode(), "a reply is not 201 with its asset")
    must(os.path.exists(report), "the program's calls were not seen")
    with open(report, encoding="ascii") as told:
        writes, syncs, in_syncs, most = told.read().split()
    must((int(writes), int(syncs)) == (2 * count + 1, 2 * count + 2), f"{writes} writes and {syncs} syncs in {count} commits")
    return seconds, float(in_syncs), int(most)


def open_again(folder, count):
    """The journal opens with no request, and the last asset is there."""
    journal, again = os.path.join(folder, "journal"), os.path.join(folder, "again")
    for text, there in ("", b""), (request(count - 1), b"already_exists"):
        with open(again, "w", encoding="ascii") as requests:
            requests.write(text)
        _, status, output = apply(journal, again)
        must(status == 0 and there in output and bool(text) == bool(output), f"the journal does not open: status {status}")


def run_append(folder, count):
    """The C program on the wallet's journal: its seconds, and those of them in fdatasync. Its copy is the same, byte by byte."""
    program, journal, copy = (os.path.join(folder, name) for name in ("append", "journal", "copy"))
    subprocess.run(["cc", "-std=c99", "-O2", "-o", program, os.path.join(HERE, "append.c")], check=True)
    told = subprocess.run([program, journal, copy], stdout=subprocess.PIPE, check=True).stdout.split()
    must(int(told[0]) == count, f"{told[0].decode()} commits, and not {count}")
    with open(journal, "rb") as one, open(copy, "rb") as other:
        must(one.read() == other.read(), "the C program's journal differs")
    return float(told[1]), float(told[2])


def signed(target, body):
    """A request of a client whose proof has the form of one and is none, so that it is compared to the end."""
    fields = f"wallet-client: https://wallet.example/shop\r\nwallet-signature: {'0' * 64}\r\nauthorization: GNAP a{'0' * 32}-1\r\n"
    return f"POST {target} HTTP/1.1\r\nhost: wallet.example\r\n{fields}content-length: {len(body)}\r\n\r\n{body}"


def run_reading(folder, count, asked):
    """The seconds that so many requests take which are read and understood, and not answered yet."""
    requests = os.path.join(folder, "asked")
    with open(requests, "w", encoding="ascii") as stream:
        stream.write(signed(*asked) * count)
    seconds, status, output = apply(os.path.join(folder, "unused"), requests)
    must(status == 0, f"status {status}")
    must(output.count(b"HTTP/1.1 404 ") == output.count(b"HTTP/1.1 ") == count, "a request is not understood")
    return seconds


def bench(folder, count):
    with open(os.path.join(folder, "requests"), "w", encoding="ascii") as requests:
        requests.writelines(map(request, range(count)))
    seconds, in_syncs, most = run_wallet(folder, count)
    open_again(folder, count)
    alone, alone_in_syncs = run_append(folder, count)
    print(f"wallet apply: {count} requests in {seconds:.2f} s, {count / seconds:.0f} a second, {in_syncs / seconds:.1%} of it in fdatasync")
    print(f"its memory:   at most {most / 1024:.1f} MiB")
    print(f"append.c:     the same commits in {alone:.2f} s, {count / alone:.0f} a second, {alone_in_syncs / alone:.1%} of it in fdatasync")
    print(f"outside fdatasync the wallet took {(seconds - in_syncs) / count * 1e6:.0f} microseconds a request")
    for name, asked in ("a quote", QUOTE), ("a grant", GRANT):
        seconds = run_reading(folder, count, asked)
        print(f"reading:      {count} requests for {name} in {seconds:.2f} s, {seconds / count * 1e6:.0f} microseconds a request")


def main():
    count = int(sys.argv[1]) if len(sys.argv) > 1 else 20000
    where = sys.argv[2] if len(sys.argv) > 2 else os.path.dirname(WALLET)
    with tempfile.TemporaryDirectory(prefix="bench-", dir=where) as folder:
        try:
            bench(folder, count)
        except Failed as fault:
            print(f"FAILED  {fault}")
            return 1
    return 0


if __name__ == "__main__":
    sys.exit(main())
