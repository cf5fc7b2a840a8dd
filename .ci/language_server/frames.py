"""Frames, and the JSON in them, as the crates rpc_frames and rpc_messages define them."""
import json
import re

MOST = 2**28
DEEPEST = 127
NAME = re.compile(rb"(?:\A|(?<=\n))content-length:", re.I)
NUMBER = re.compile(rb" *([0-9]+)\r")
# The frames that the server writes have the shortest head.
WRITTEN = re.compile(rb"Content-Length: ([1-9][0-9]*)\r\n\r\n")
SURROGATE = re.compile("[\ud800-\udfff]")


class Broken(Exception):
    """A head says no length, or one above 256 MB."""


class NoJson(Exception):
    """A body is no JSON."""


def framed(body, fields=b"Content-Length: %d\r\n"):
    return fields % len(body) + b"\r\n" + body


# The length that a head says.
def length_in(head):
    name = NAME.search(head)
    number = name and NUMBER.match(head, name.end())
    if not number or int(number[1]) > MOST:
        raise Broken
    return int(number[1])


# The first body of a stream and the rest behind it. The body is None where no frame has come whole.
def first_body(stream):
    at = stream.find(b"\r\n\r\n")
    if at < 0:
        return None, stream
    begin = at + 4
    end = begin + length_in(stream[:begin])
    return (stream[begin:end], stream[end:]) if end <= len(stream) else (None, stream)


# The messages that the server wrote, or what is wrong with them.
def written(stream):
    messages, at = [], 0
    while at < len(stream):
        head = WRITTEN.match(stream, at)
        if not head or head.end() + int(head[1]) > len(stream):
            raise ValueError(f"no frame: {stream[at:at + 80]!r}")
        at = head.end() + int(head[1])
        messages.append(json.loads(stream[head.end():at].decode()))
    return messages


# Whether two values are one: 1 is not 1.0, and members have no order. What is no JSON in the wanted
# value decides by itself what is equal to it.
def same(found, wanted):
    if isinstance(wanted, dict) and isinstance(found, dict):
        pairs = [(found[it], wanted[it]) for it in wanted if it in found]
        return len(found) == len(wanted) == len(pairs) and all(same(*it) for it in pairs)
    if isinstance(wanted, list) and isinstance(found, list):
        return len(found) == len(wanted) and all(map(same, found, wanted))
    is_scalar = wanted is None or isinstance(wanted, (str, int, float))
    return wanted == found and (type(found) is type(wanted) or not is_scalar)


def shown(value):
    return json.dumps(value, sort_keys=True, ensure_ascii=False, default=repr)


# An integer of more than 64 bits is a float, and so is -0. A float that is not finite is refused.
def integer(digits):
    if digits == "-0" or len(digits) > 20 or not -(2**63) <= int(digits) < 2**64:
        return finite(digits)
    return int(digits)


def finite(digits):
    number = float(digits)
    if number in (float("inf"), float("-inf")):
        raise NoJson
    return number


def refuse(word):
    raise NoJson


def depth_of(value):
    inside = value.values() if isinstance(value, dict) else value
    return 1 + max(map(depth_of, inside), default=0) if isinstance(value, (dict, list)) else 0


# The message that a body is. A surrogate stands only in a pair, and 127 levels are the most.
def read(body):
    how = {"parse_int": integer, "parse_float": finite, "parse_constant": refuse}
    try:
        value = json.loads(body.decode(), **how)
        text = json.dumps(value, ensure_ascii=False)
    except (ValueError, RecursionError) as error:
        raise NoJson from error
    if SURROGATE.search(text) or depth_of(value) > DEEPEST:
        raise NoJson
    return value
