"""The OpenAPI document, HTTP messages, and whether a message is one that the document has. For scripts/interface.py."""
import json
import os
import re
import sys
from urllib.parse import parse_qsl

try:
    import yaml
    from jsonschema import Draft202012Validator
    from openapi_spec_validator import validate
except ImportError as fault:
    sys.exit(f"interface: the Python package {fault.name} is not installed")

ROOT = os.path.join(os.path.dirname(os.path.abspath(__file__)), "..")

FAULTS = []


def must(holds, words):
    """Tells a fault where something does not hold."""
    if not holds:
        FAULTS.append(words)
        print(f"FAILED  {words}")
    return holds


def read(*names):
    """The text of a file of the repository."""
    with open(os.path.join(ROOT, *names), encoding="utf-8") as file:
        return file.read()


# ---- HTTP messages


class Message:
    """A request or a reply: its first line, its fields in lower case, and its body, which is None where it has none."""

    def __init__(self, text):
        head, _, body = text.partition("\r\n\r\n")
        self.first, *lines = head.split("\r\n")
        self.fields = {name.lower(): value for name, value in (line.split(": ", 1) for line in lines)}
        self.body = body if "content-length" in self.fields else None
        self.is_whole = len(body.encode()) == int(self.fields.get("content-length", 0))


# ---- the document


class Interface:
    """The document, with its operations by their identifiers."""

    def __init__(self):
        self.document = yaml.safe_load(read("docs", "openapi.yaml"))
        self.components = self.document["components"]
        self.operations, self.routes = {}, {}
        for path, item in self.document["paths"].items():
            for method in item.keys() & {"get", "post", "delete"}:
                operation = dict(item[method])
                operation["parameters"] = item.get("parameters", []) + operation.get("parameters", [])
                self.operations[operation["operationId"]] = operation
                self.routes[method.upper(), path] = operation["operationId"]

    def check_form(self):
        """The document is one (OpenAPI 3.1). Where it is not, nothing else can be looked at."""
        try:
            validate(self.document)
        except Exception as fault:  # of many kinds, each with its text
            return must(False, f"docs/openapi.yaml: {str(fault).splitlines()[0]}")
        return True

    def follow(self, node):
        """A component in the place of the reference to it."""
        if "$ref" in node:
            _, _, kind, name = node["$ref"].split("/")
            return self.components[kind][name]
        return node

    def faults_in(self, schema, value):
        """All that is wrong with a value."""
        validator = Draft202012Validator({**schema, "components": self.components}, format_checker=Draft202012Validator.FORMAT_CHECKER)
        return list(validator.iter_errors(value))

    def fault_in(self, schema, value):
        """What is wrong with a value, in words, or None."""
        for found in self.faults_in(schema, value):
            return f"{'/'.join(map(str, found.absolute_path))}: {found.message[:200]}"
        return None

    def route_of(self, method, target):
        """The identifier of the operation that a request asks for, and the texts of its path's parameters."""
        path = target.partition("?")[0]
        for (known, template), name in sorted(self.routes.items(), key=lambda route: route[0][1] == "/{path}"):
            form = re.sub(r"\\\{(\w+)\\\}", r"(?P<\1>[^/]+)", re.escape(template))
            if template == "/{path}":
                form = "/(?P<path>.+)"
            fits = re.fullmatch(form, path)
            if known == method and fits:
                return name, fits.groupdict()
        return None, {}

    def codes_of(self, node):
        """The codes that a response's schema lets through, for a reply without further members."""
        schema = self.follow(node).get("content", {}).get("application/json", {}).get("schema", {})
        return schema.get("properties", {}).get("error", {}).get("properties", {}).get("code", {}).get("enum", [])

    def check_response(self, name, node, reply, words):
        """A reply as one of the responses of the document."""
        response = self.follow(node)
        for field, header in response.get("headers", {}).items():
            if must(field in reply.fields, f"{words}: no field {field}"):
                fault = self.fault_in(self.follow(header)["schema"], reply.fields[field])
                must(fault is None, f"{words}: field {field}: {fault}")
        content = response.get("content")
        if not must((content is None) == (reply.body is None), f"{words}: {name} has a body, or has none"):
            return
        if content is not None:
            must(reply.fields.get("content-type") == "application/json", f"{words}: another type of content")
            fault = self.fault_in(content["application/json"]["schema"], json.loads(reply.body))
            must(fault is None, f"{words}: {name}: {fault}")

    def check_reply(self, name, text, words):
        """A whole reply of an operation."""
        reply = Message(text)
        must(reply.is_whole, f"{words}: its content-length is not that of its body")
        must(reply.fields.get("connection") == "close", f"{words}: no connection: close")
        if reply.body is not None:
            check_printed(reply.body, words)
        responses = self.operations[name]["responses"]
        status = reply.first.split(" ")[1]
        if must(status in responses, f"{words}: {name} has no response {status}"):
            self.check_response(f"{name} {status}", responses[status], reply, words)

    def check_body(self, name, text, words):
        """The body of a request."""
        body = self.operations[name].get("requestBody")
        if must(body is not None, f"{words}: {name} has no body"):
            fault = self.fault_in(body["content"]["application/json"]["schema"], json.loads(text))
            must(fault is None, f"{words}: {name}: {fault}")

    def fault_in_parameters(self, name, path_texts, target):
        """What is wrong with the parameters of a path and of a query, or None. The first of a name counts."""
        try:
            query = dict(reversed(parse_qsl(target.partition("?")[2], keep_blank_values=True, errors="strict")))
        except UnicodeDecodeError:
            return "it is not UTF-8"
        for parameter in map(self.follow, self.operations[name]["parameters"]):
            given = (path_texts if parameter["in"] == "path" else query).get(parameter["name"])
            if given is None:
                fault = "it is missing" if parameter.get("required") else None
            else:
                is_number = self.follow(parameter["schema"]).get("type") == "integer" and re.fullmatch("0|[1-9][0-9]*", given)
                fault = self.fault_in(parameter["schema"], int(given) if is_number else given)
            if fault is not None:
                return f"{parameter['name']}: {fault}"
        return None

    def check_parameters(self, name, target, path_texts, words):
        fault = self.fault_in_parameters(name, path_texts, target)
        must(fault is None, f"{words}: {fault}")


def check_printed(text, words):
    """JSON as the wallet prints it: compact, and the members of each object in the order of their names' bytes."""
    printed = json.dumps(json.loads(text), separators=(",", ":"), ensure_ascii=False, sort_keys=True)
    must(printed == text, f"{words}: not as the wallet prints it")
