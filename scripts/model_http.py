"""Requests and replies as bytes, key proofs, and webhook messages, by docs/API.md and docs/FORMATS.md. Part of
scripts/model.py."""
import hashlib
import hmac
import re
from collections import namedtuple

from model_forms import is_client, print_json

PHRASES = {200: "OK", 201: "Created", 204: "No Content", 400: "Bad Request", 401: "Unauthorized", 403: "Forbidden",
           404: "Not Found", 405: "Method Not Allowed", 409: "Conflict", 411: "Length Required",
           413: "Payload Too Large", 500: "Internal Server Error", 503: "Service Unavailable", 507: "Insufficient Storage"}
NO_MASTER = bytes(32)

# Who asks: the client that is named, whether its proof passes, and the token.
Who = namedtuple("Who", "client proved token")
NOBODY = Who(None, False, None)


class Reply(namedtuple("Reply", "status body allow origin")):
    """A reply: its body is what its JSON says, None where it has none; `allow` are the methods of a 405."""

    def text(self):
        return "" if self.body is None else print_json(self.body)

    def data(self):
        body = self.text().encode()
        lines = ["HTTP/1.1 %d %s" % (self.status, PHRASES[self.status])]
        if self.allow is not None:
            lines.append("allow: " + self.allow)
        lines.append("connection: close")
        if self.status != 204:
            lines += ["content-length: %d" % len(body), "content-type: application/json"]
        if self.status == 401:
            lines.append("www-authenticate: GNAP as_uri=%s/grant" % self.origin)
        return "".join(line + "\r\n" for line in lines).encode() + b"\r\n" + body


def body_data(body):
    """The bytes of a body, which is given as bytes or as what its JSON says."""
    return body if isinstance(body, bytes) else print_json(body).encode()


def mac(key, *parts):
    return hmac.new(key, b"".join(parts), hashlib.sha256)


def proof_of(master, client, method, target, body, authorization):
    """The key proof of a request: 64 hexadecimal digits."""
    key = mac(master, client.encode()).digest()
    lines = method, target, hashlib.sha256(body).hexdigest(), authorization or ""
    return mac(key, *(line.encode() + b"\n" for line in lines)).hexdigest()


def request_data(method, target, body, who, master=NO_MASTER):
    """The bytes of a request, with the proof of the one who asks; one who is not proved sends a wrong one."""
    lines = ["%s %s HTTP/1.1" % (method, target), "host: wallet.example"]
    authorization = None if who.token is None else "GNAP " + who.token
    if authorization is not None:
        lines.append("authorization: " + authorization)
    if who.client is not None:
        proof = proof_of(master, who.client, method, target, body, authorization)
        lines += ["wallet-client: " + who.client, "wallet-signature: " + (proof if who.proved else proof[::-1])]
    if body:
        lines.append("content-length: %d" % len(body))
    return "".join(line + "\r\n" for line in lines).encode() + b"\r\n" + body


def read_request(data):
    """The method, target, body and asker of one request in the form of `request_data`, and what is behind it."""
    head, _, rest = data.partition(b"\r\n\r\n")
    first, *lines = head.decode().split("\r\n")
    method, target, _ = first.split(" ")
    fields = {}
    for line in lines:
        name, _, value = line.partition(": ")
        fields.setdefault(name.lower(), value)
    length = int(fields.get("content-length", "0"))
    return method, target, rest[:length], who_asks(fields, method, target, rest[:length]), rest[length:]


def who_asks(fields, method, target, body, master=NO_MASTER):
    client, proof, authorization = (fields.get(name) for name in ("wallet-client", "wallet-signature", "authorization"))
    token = re.fullmatch("[Gg][Nn][Aa][Pp] (.{0,54})", authorization or "")
    token = token and token.group(1)
    if client is None or not is_client(client):
        return Who(None, False, token)
    proved = proof is not None and proof.lower() == proof_of(master, client, method, target, body, authorization)
    return Who(client, proved, token)


def message_data(number, word, data, at, key):
    """The bytes of a webhook message that tells an event at a moment."""
    body = print_json({"data": data, "id": number, "type": word}).encode()
    signature = mac(key, b"%d." % at, body).hexdigest()
    lines = ["POST / HTTP/1.1", "connection: close", "content-length: %d" % len(body), "content-type: application/json",
             "host: 127.0.0.1", "wallet-signature: t=%d, v1=%s" % (at, signature)]
    return "".join(line + "\r\n" for line in lines).encode() + b"\r\n" + body
