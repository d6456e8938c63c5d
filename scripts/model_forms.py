"""The forms of docs/API.md: values, moments, intervals, identifiers, names, JSON. Part of scripts/model.py.

Each `read_` answers what a text says, or None where it breaks the form. Whole numbers are ints, and a text is a str.
Hosts with a percent sign, and what IDNA makes of `xn--`, are not looked at: the first are refused, the second taken.
"""
import ipaddress
import json
import math
import re

TOP = 10 ** 18
RATE_TOP = 10 ** 12
LAST = 253402300799999

MILLISECONDS = {"W": 604800000, "D": 86400000, "h": 3600000, "m": 60000, "s": 1000}


# ---- values


def floor_mul(value, num, den):
    return value * num // den


def least_source(value, num, den):
    """The least amount whose floor at the rate reaches the value."""
    return -(-value * den // num)


def read_digits(text, low, high):
    """A whole number from low to high, as digits without a leading zero."""
    if not re.fullmatch("0|[1-9][0-9]{0,18}", text):
        return None
    return int(text) if low <= int(text) <= high else None


def read_value(text):
    return read_digits(text, 0, TOP)


def is_code(text):
    return re.fullmatch("[A-Z][A-Z0-9]{2,7}", text) is not None


def scaled(value, scale):
    """The value with its point, and without one where the scale is 0."""
    digits = str(value).rjust(scale + 1, "0")
    return digits if scale == 0 else digits[:-scale] + "." + digits[-scale:]


# ---- moments and intervals


def is_leap(year):
    return year % 4 == 0 and (year % 100 != 0 or year % 400 == 0)


def month_length(year, month):
    return 29 if month == 2 and is_leap(year) else [31, 28, 31, 30, 31, 30, 31, 31, 30, 31, 30, 31][month - 1]


def day_number(year, month, day):
    """Days since 1970-01-01."""
    before = 365 * year + (year + 3) // 4 - (year + 99) // 100 + (year + 399) // 400
    in_year = sum(month_length(year, m) for m in range(1, month)) + day - 1
    return before + in_year - 719528


def date_of(days):
    """The year, month and day of a day number."""
    year = 1970 + days // 366
    while day_number(year + 1, 1, 1) <= days:
        year += 1
    rest, month = days - day_number(year, 1, 1), 1
    while rest >= month_length(year, month):
        rest, month = rest - month_length(year, month), month + 1
    return year, month, rest + 1


MOMENT = re.compile("([0-9]{4})-([0-9]{2})-([0-9]{2})[Tt]([0-9]{2}):([0-9]{2}):([0-9]{2})"
                    "(?:[.]([0-9]{1,9}))?(?:[Zz]|([+-])([0-9]{2}):([0-9]{2}))")


def read_moment(text):
    """Milliseconds since 1970, cut to whole ones."""
    found = MOMENT.fullmatch(text)
    if not found:
        return None
    year, month, day, hour, minute, second = (int(found.group(n)) for n in range(1, 7))
    if not 1 <= month <= 12 or not 1 <= day <= month_length(year, month) or hour > 23 or minute > 59 or second > 59:
        return None
    offset_hour, offset_minute = int(found.group(9) or 0), int(found.group(10) or 0)
    if offset_hour > 23 or offset_minute > 59:
        return None
    offset = (offset_hour * 60 + offset_minute) * (-1 if found.group(8) == "-" else 1)
    minutes = (day_number(year, month, day) * 24 + hour) * 60 + minute - offset
    moment = minutes * 60000 + second * 1000 + int((found.group(7) or "").ljust(9, "0")) // 1000000
    return moment if 0 <= moment <= LAST else None


def print_moment(moment):
    days, rest = divmod(moment, MILLISECONDS["D"])
    year, month, day = date_of(days)
    return "%04d-%02d-%02dT%02d:%02d:%02d.%03dZ" % (
        year, month, day, rest // 3600000, rest // 60000 % 60, rest // 1000 % 60, rest % 1000)


NUMBER = "(?:([0-9]{1,6})%s)?"
DURATION = re.compile("P(?:([0-9]{1,6})W|" + NUMBER % "Y" + NUMBER % "M" + NUMBER % "D"
                      + "(T" + NUMBER % "H" + NUMBER % "M" + NUMBER % "S" + ")?)")


class Interval:
    """A repeating interval: how often (None is without end), the first start, months, and milliseconds beside them."""

    def __init__(self, count, start, months, rest):
        self.count, self.start, self.months, self.rest = count, start, months, rest

    def start_of(self, j):
        """The start of repetition j, counted from 0; None past the last moment. Months are added first."""
        days, time = divmod(self.start, MILLISECONDS["D"])
        year, month, day = date_of(days)
        number = 12 * year + month - 1 + j * self.months
        year, month = number // 12, number % 12 + 1
        if year > 9999:
            return None
        days = day_number(year, month, min(day, month_length(year, month)))
        moment = days * MILLISECONDS["D"] + time + j * self.rest
        return moment if moment <= LAST else None

    def place_of(self, moment):
        """The number of the repetition in which the moment lies, or `before` or `after`."""
        if moment < self.start:
            return "before"
        low, high = 0, 1
        while self.has_begun(high, moment):
            high *= 2
        while high - low > 1:
            middle = (low + high) // 2
            low, high = (middle, high) if self.has_begun(middle, moment) else (low, middle)
        return low if self.count is None or low < self.count else "after"

    def has_begun(self, j, moment):
        start = self.start_of(j)
        return start is not None and start <= moment


def read_duration(text):
    """Months, and milliseconds beside them."""
    found = DURATION.fullmatch(text)
    if not found:
        return None
    weeks, years, months, days, clock, hours, minutes, seconds = found.groups()
    if clock == "T" or all(part is None for part in found.groups()):
        return None
    numbers = [int(part or 0) for part in (weeks, years, months, days, hours, minutes, seconds)]
    if not any(numbers):
        return None
    weeks, years, months, days, hours, minutes, seconds = numbers
    rest = weeks * MILLISECONDS["W"] + days * MILLISECONDS["D"]
    return 12 * years + months, rest + (hours * 3600 + minutes * 60 + seconds) * 1000


def read_interval(text):
    parts = text.split("/")
    if len(text.encode()) > 128 or len(parts) != 3 or parts[0][:1] != "R":
        return None
    start, duration = read_moment(parts[1]), read_duration(parts[2])
    count = None if parts[0] == "R" else read_digits(parts[0][1:], 1, 10 ** 9)
    if start is None or duration is None or (count is None and parts[0] != "R"):
        return None
    return Interval(count, start, *duration)


# ---- identifiers and names

KINDS = {"incoming": 1, "quote": 2, "outgoing": 3, "grant": 4, "event": 5, "address": 6}
RESERVED = ("admin", "grant", "continue", "token", "incoming-payments", "quotes", "outgoing-payments", "monetization")


def id_text(kind, number):
    return "%08x-0000-8000-8000-%012x" % (KINDS[kind], number)


def read_id(kind, text):
    """The number that an identifier of the kind names."""
    found = re.fullmatch("([0-9a-fA-F]{8})-0000-8000-8000-([0-9a-fA-F]{12})", text)
    if not found or int(found.group(1), 16) != KINDS[kind]:
        return None
    return int(found.group(2), 16) or None


def read_ipv4(labels):
    """The address that labels spell as the URL Standard reads them, as a number."""
    numbers = []
    for label in labels:
        for form, base in (("0[xX]([0-9a-fA-F]*)", 16), ("0([0-7]+)", 8), ("(0|[1-9][0-9]*)", 10)):
            found = re.fullmatch(form, label)
            if found:
                numbers.append(int(found.group(1) or "0", base))
                break
        else:
            return None
    if len(numbers) > 4 or any(number > 255 for number in numbers[:-1]) or numbers[-1] >= 256 ** (5 - len(numbers)):
        return None
    return numbers[-1] + sum(number * 256 ** (3 - place) for place, number in enumerate(numbers[:-1]))


def read_host(text):
    """The host as the URL Standard prints it."""
    if text[:1] == "[":
        try:
            return "[" + ipaddress.IPv6Address(text[1:-1]).compressed + "]" if text[-1:] == "]" else None
        except ValueError:
            return None
    if not text or re.search("[^!-~]|[][#/:<>?@\\\\^|%]", text):
        return None
    labels = text.split(".")
    labels = labels[:-1] if labels[-1] == "" and len(labels) > 1 else labels
    if re.fullmatch("[0-9]+|0[xX][0-9a-fA-F]*", labels[-1]):
        number = read_ipv4(labels)
        return None if number is None else str(ipaddress.IPv4Address(number))
    return text.lower()


def read_authority(scheme, text):
    """Host and port as the URL Standard prints them."""
    found = re.fullmatch("(.*?)(?::([0-9]*))?", text)
    host, port = read_host(found.group(1)), found.group(2) or ""
    if host is None or (port and int(port) > 65535):
        return None
    usual = {"https": 443, "http": 80}[scheme]
    return host if port == "" or int(port) == usual else "%s:%d" % (host, int(port))


def is_origin(text):
    found = re.fullmatch("(https?)://([^/?#@\\\\]*)", text)
    return found is not None and len(text) <= 200 and read_authority(*found.groups()) == found.group(2)


def is_finish_uri(text):
    """A web address of ASCII without a fragment, as the URL Standard reads it."""
    if len(text) > 512 or not text.isascii() or "#" in text:
        return False
    cut = re.sub("[\t\n\r]", "", text.strip("".join(map(chr, range(33)))))
    found = re.fullmatch("(?s)(https?):[/\\\\]*([^/?\\\\]*)(.*)", cut, re.IGNORECASE)
    return found is not None and read_authority(found.group(1).lower(), found.group(2).rpartition("@")[2]) is not None


def is_path(text):
    segments = text.split("/")[1:]
    return (text[:1] == "/" and len(text) <= 128 and 1 <= len(segments) <= 8 and segments[0] not in RESERVED
            and all(re.fullmatch("[A-Za-z0-9._~-]{1,64}", segment) and segment not in (".", "..") for segment in segments))


def read_address_name(text):
    """The origin and the path that an address name or a payment pointer stands for."""
    if text[:1] == "$":
        host, slash, path = text[1:].partition("/")
        text = "https://" + host + ("/" + path if path else "/.well-known/pay")
        if ":" in host:
            return None
    found = re.fullmatch("([a-z]+://[^/]*)(/.*)", text)
    return found.groups() if found and is_origin(found.group(1)) and is_path(found.group(2)) else None


def read_row_name(kind, text):
    """The origin and the number that the name of an incoming payment or a quote stands for."""
    found = re.fullmatch("([a-z]+://[^/]*)/%s/([^/]*)" % {"incoming": "incoming-payments", "quote": "quotes"}[kind], text)
    if not found or not is_origin(found.group(1)):
        return None
    number = read_id(kind, found.group(2))
    return number and (found.group(1), number)


def is_visible(text, low, high):
    return re.fullmatch("[!-~]{%d,%d}" % (low, high), text) is not None


def is_client(text):
    return len(text) <= 256 and re.fullmatch("https?://[!-~]*", text) is not None


# ---- JSON


class NotWhole:
    """A number that is written with a sign before 0, a point or an exponent, or that needs more than 64 bits."""


def read_number(text):
    if math.isinf(float(text)):
        raise ValueError("a number that rounds to infinity")
    if not re.fullmatch("0|-?[1-9][0-9]*", text) or not -2 ** 63 <= int(text) < 2 ** 64:
        return NotWhole()
    return int(text)


def refuse_constant(text):
    raise ValueError(text + " is no JSON")


def check_texts(value, levels):
    """No lone half of a character pair, and not too many levels."""
    if isinstance(value, str):
        value.encode()
    elif isinstance(value, (list, dict)):
        if levels == 0:
            raise ValueError("too many levels")
        for inner in value.values() if isinstance(value, dict) else value:
            check_texts(inner, levels - 1)
        for name in value if isinstance(value, dict) else ():
            name.encode()


def read_json(data):
    """What the bytes say as JSON; ValueError where they say nothing. The last of equal names counts."""
    try:
        value = json.loads(data.decode(), parse_float=read_number, parse_int=read_number, parse_constant=refuse_constant)
        check_texts(value, 127)
    except RecursionError:
        raise ValueError("too many levels") from None
    return value


def print_json(value):
    """Compact, the members of an object in the order of their names' bytes."""
    return json.dumps(value, ensure_ascii=False, sort_keys=True, separators=(",", ":"))


def is_whole_below(value):
    """Whether each number in the value is a whole one."""
    if isinstance(value, dict):
        return all(map(is_whole_below, value.values()))
    return all(map(is_whole_below, value)) if isinstance(value, list) else not isinstance(value, NotWhole)


def read_metadata(value):
    """The printed form of metadata."""
    if not isinstance(value, dict) or not is_whole_below(value):
        return None
    text = print_json(value)
    return text if len(text.encode()) <= 1024 else None


def page_of(metadata):
    """The page that metadata names: its member `page`, a text of 1 to 64 bytes."""
    page = json.loads(metadata).get("page") if metadata is not None else None
    return page if isinstance(page, str) and 1 <= len(page.encode()) <= 64 else None
