"""What the octets of a request are, by RFC 9112, RFC 8620, docs/HTTP.md and docs/DECISIONS.md."""

import json
import re
import sys

MAX_HEAD = 16_384
MAX_REQUEST, MAX_UPLOAD = 10_000_000, 50_000_000
sys.set_int_max_str_digits(0)
sys.setrecursionlimit(20_000)

# ---- what octets are, by RFC 9112 and docs/HTTP.md

TOKEN = rb"[!#$%&'*+\-.^_`|~0-9A-Za-z]+"
VALUE = rb"[\t\x20-\x7e\x80-\xff]*"
FIELD = rb"(?:" + TOKEN + rb":" + VALUE + rb"\r?\n)"
HEAD = re.compile(rb"(?:\r?\n)*(" + TOKEN + rb") ([\x21-\x7e\x80-\xff]+) HTTP/1\.([01])\r?\n(" + FIELD + rb"*)\r?\n")
SECTION = re.compile(FIELD + rb"*\r?\n")
SECTION_BEGINS = re.compile(FIELD + rb"*(?:(?:" + TOKEN + rb"(?::" + VALUE + rb")?)?\r?)\Z")
CHUNK = re.compile(rb"([0-9A-Fa-f]{1,16})[ \t]*(?:;[^\r\n]*)?\r\n")
CHUNK_BEGINS = re.compile(rb"(?:[0-9A-Fa-f]{1,16}[ \t]*(?:;[^\r\n]*)?\r?)?\Z")


class Refused(Exception):
    """A status, or None where no answer is due; and whether the client is told to go on before it."""

    def __init__(self, status, continues=False):
        super().__init__(status)
        self.status, self.continues = status, continues


def head_end(octets):
    """Where an empty line ends that comes after a line that isn't empty."""
    at, some = 0, False
    while (end := octets.find(b"\n", at)) >= 0:
        empty = octets[at:end] in (b"", b"\r")
        at = end + 1
        if empty and some:
            return at
        some = some or not empty
    return None


def has_no_end(octets):
    """Whether a client is waited for until it is late: it begins no head, or one without an end."""
    return not re.match(rb"[\r\n]|" + TOKEN, octets) or len(octets) < MAX_HEAD and head_end(octets) is None


def path_of(target):
    return re.sub(rb"\A[A-Za-z][A-Za-z0-9+\-.]*://[^/?#]*", b"", target, count=1).split(b"?")[0]


def unescaped(part):
    return re.sub(rb"%([0-9A-Fa-f]{2})", lambda found: bytes([int(found[1], 16)]), part)


def route(method, path):
    """What a path is of, by its parts; the account before the method."""
    upload, download = re.fullmatch(rb"/jmap/upload/([^/]+)", path, re.S), re.fullmatch(rb"/jmap/download/([^/]+)/[^/]+/[^/]*", path, re.S)
    kind = {b"/.well-known/jmap": "session", b"/jmap/api": "api"}.get(path) or (upload and "upload") or (download and "download")
    named = upload or download
    if not kind or named and unescaped(named[1]) != b"a1":
        raise Refused(404)
    if method != (b"POST" if kind in ("api", "upload") else b"GET"):
        raise Refused(405)
    return kind


def chunks(octets, limit):
    """The body of octets in chunks."""
    body, excess = b"", 0
    while True:
        found = CHUNK.match(octets[:MAX_HEAD])
        if not found:
            raise Refused(None if len(octets) < MAX_HEAD and CHUNK_BEGINS.match(octets) else 400)
        size, octets = int(found[1], 16), octets[found.end():]
        if size == 0:
            if not SECTION.match(octets[:MAX_HEAD]):
                raise Refused(None if len(octets) < MAX_HEAD and SECTION_BEGINS.match(octets) else 400)
            return body
        excess += max(0, found.end() - 16)
        if excess > MAX_HEAD:
            raise Refused(400)
        if len(body) + size > limit:
            raise Refused(413)
        if len(octets) < size:
            raise Refused(None)
        end = octets[size:size + 2]
        if end != b"\r\n":
            raise Refused(None if end in (b"", b"\r") else 400)
        body, octets = body + octets[:size], octets[size + 2:]


def asked(octets):
    """What octets ask: the kind, the body where one is read, and whether the client is told to go on before that."""
    if has_no_end(octets):
        raise Refused(None)
    end = head_end(octets[:MAX_HEAD])
    if end is None:
        raise Refused(431)
    head = HEAD.match(octets[:end])
    if not head or head.end() != end:
        raise Refused(400)
    try:
        head[2].decode()
    except UnicodeDecodeError:
        raise Refused(400) from None
    fields = [(name.lower(), value.strip(b" \t\r\n")) for name, value in (line.split(b":", 1) for line in head[4].split(b"\n")[:-1])]
    values = lambda name: [value for named, value in fields if named == name]
    lengths, codings, tokens = values(b"content-length"), values(b"transfer-encoding"), values(b"authorization")
    if lengths and (codings or len(lengths) > 1 or not re.fullmatch(rb"[0-9]+", lengths[0])) or codings and [c.lower() for c in codings] != [b"chunked"]:
        raise Refused(400)
    if len(tokens) != 1 or not re.fullmatch(rb"(?i:bearer) +secret", tokens[0]):
        raise Refused(401)
    kind = route(head[1], path_of(head[2]))
    if kind in ("session", "download"):
        return kind, b"", False
    limit, rest, size = MAX_REQUEST if kind == "api" else MAX_UPLOAD, octets[end:], int(lengths[0]) if lengths else 0
    if size > limit:
        raise Refused(413)
    continues = head[3] == b"1" and [value.lower() for value in values(b"expect")[:1]] == [b"100-continue"]
    if not codings and len(rest) < size:
        raise Refused(None, continues)
    try:
        return kind, chunks(rest, limit) if codings else rest[:size], continues
    except Refused as refused:
        raise Refused(refused.status, continues) from None


# ---- what a body is, by RFC 8620 and docs/DECISIONS.md

def json_of(body):
    """The value; ValueError where there is none: not UTF-8, no JSON, a number past a float, nesting past 127."""
    text, depth, deepest = body.decode(), 0, 0
    for mark in re.findall(r"[\[{\]}]", re.sub(r'"(?:[^"\\]|\\.)*"', "", text, flags=re.S)):
        depth += 1 if mark in "[{" else -1
        deepest = max(deepest, depth)

    def number(digits):
        if float(digits) in (float("inf"), float("-inf")):
            raise ValueError
        return int(digits) if re.fullmatch(r"-?\d+", digits) else float(digits)

    def refuse(word):
        raise ValueError(word)
    if deepest > 127:
        raise ValueError
    value = json.loads(text, parse_int=number, parse_float=number, parse_constant=refuse)
    json.dumps(value, ensure_ascii=False).encode()  # (a surrogate by itself is no character)
    return value


def problem_of(body):
    """The problem of a body, or None and the request that it is."""
    try:
        request = json_of(body)
    except (ValueError, RecursionError):
        return "notJSON", None
    texts = lambda values: isinstance(values, list) and all(isinstance(value, str) for value in values)
    if not isinstance(request, dict) or not texts(request.get("using")) or not isinstance(request.get("methodCalls"), list):
        return "notRequest", None
    calls, created = request["methodCalls"], request.get("createdIds")
    if not all(isinstance(call, list) and len(call) == 3 and texts([call[0], call[2]]) and isinstance(call[1], dict) for call in calls):
        return "notRequest", None
    if created is not None and not (isinstance(created, dict) and texts(list(created.values()))):
        return "notRequest", None
    if not {*request["using"]} <= {"urn:ietf:params:jmap:core", "urn:ietf:params:jmap:mail"}:
        return "unknownCapability", None
    return ("limit", None) if len(calls) > 16 else (None, request)
