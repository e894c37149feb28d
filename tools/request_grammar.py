"""Requests grown from a number: JSON of a grammar of all methods, and HTTP around it, in both of which anything may be wrong."""

import hashlib
import json
import random

MAX_REQUEST = 10_000_000
UPLOADS = [b"From: ann@example.org\r\nSubject: Uploaded\r\n\r\nText.\r\n", b"\x89PNG\x00\xff" * 40,
           b"Content-Type: multipart/mixed; boundary=b\r\n\r\n--b\r\n\r\none\r\n--b\r\nContent-Type: message/rfc822\r\n\r\nSubject: x\r\n\r\ny\r\n--b--\r\n"]
BLOBS = ["u" + hashlib.sha256(octets).hexdigest() for octets in UPLOADS]

# ---- JSON, grown


class Raw(str):
    """A text of JSON, or none, that stands as it is."""


WRONG = [None, True, False, 0, -1, 1, 2**31, 2**53 - 1, 2**53, 2**64, -2**63 - 1, Raw("1.5"), Raw("1e3"), Raw("-0"), Raw("1e400"), Raw("0.0e-999"), "", "a",
         "#", "/", "~", "\u0000", "\U0001f600", "e1", "m1", "r1", "x" * 300, "x" * 70_000, [], {}, [None], [[]], ["e1", 1], {"": None}, {"a": {"b": []}},
         {"#ids": 1}, {"resultOf": "c0", "name": "Core/echo", "path": "/"}, Raw("[" * 100 + "]" * 100), Raw('{"a":' * 120 + "1" + "}" * 120),
         Raw("[" * 126 + "]" * 126)]
NO_JSON = [Raw("01"), Raw("+1"), Raw("1."), Raw(".5"), Raw("nul"), Raw("NaN"), Raw("-Infinity"), Raw("'a'"), Raw('"\\ud800"'), Raw('"\\x"'), Raw('"\x01"'),
           Raw("[1,]"), Raw('{"a":1,}'), Raw("{1:2}"), Raw("[" * 3_000 + "]" * 3_000), Raw("[" * 50_000), Raw("9" * 400), Raw('"'), Raw("/**/1")]
KEYWORDS = ["$seen", "$flagged", "$answered", "$draft", "work", "$forwarded"]
ROLES = ["inbox", "archive", "drafts", "sent", "trash", "junk", "all", None]
EMAIL_PROPERTIES = ["id", "blobId", "threadId", "mailboxIds", "keywords", "size", "receivedAt", "messageId", "inReplyTo", "references", "sender", "from", "to", "cc",
                    "bcc", "replyTo", "subject", "sentAt", "headers", "bodyStructure", "bodyValues", "textBody", "htmlBody", "attachments", "hasAttachment", "preview",
                    "header:Subject:asText", "header:from:asAddresses", "header:From:asGroupedAddresses:all", "header:Date:asDate", "header:X-Odd:asRaw:all",
                    "header:References:asMessageIds", "header:List-Post:asURLs", "header:X-Odd"]
BODY_PROPERTIES = ["partId", "blobId", "size", "name", "type", "charset", "disposition", "cid", "language", "location", "subParts", "headers", "header:Content-Type"]
MAILBOX_PROPERTIES = ["id", "name", "parentId", "role", "sortOrder", "totalEmails", "unreadEmails", "totalThreads", "unreadThreads", "myRights", "isSubscribed"]
DATES = ["2024-01-02T03:04:05Z", "1970-01-01T00:00:00Z", "9999-12-31T23:59:59Z", "0000-01-01T00:00:00Z"]
NAMES = ["Plans", "Réunion", "a b", "Archive", "INBOX", "x" * 255, "q\"\\", "%*"]
TEXTS = ["", "plan", "Grüße", "Re: plan", "Ann B.", "a\r\nb", "\u202e\u0085", "x" * 2_000, "=?utf-8?Q?=C3=A9?=", "\"a\" <b>", "<>&", "~0~1/"]


class Grower:
    """Grows one request; `odd` says whether anything in it may be wrong."""

    def __init__(self, chance):
        self.chance, self.odd = chance, False
        self.oddness = chance.choice([0, 0, 0, 0.01, 0.05, 0.3])
        self.calls = []

    def some(self, values, most=3):
        return [self.chance.choice(values) for _ in range(self.chance.randrange(most + 1))]

    def wrong(self):
        self.odd = True
        return self.chance.choice(NO_JSON if self.chance.random() < 0.02 else WRONG)

    def maybe(self, value):
        """This value, or sometimes any other."""
        return self.wrong() if self.chance.random() < self.oddness else value

    def members(self, **values):
        """Some of these members; a value is made where it is taken, and a name that ends in `_` is always there."""
        made = {}
        for name, value in values.items():
            if name.endswith("_") or self.chance.random() < 0.4:
                made[name.rstrip("_")] = self.maybe(value() if callable(value) else value)
        if self.chance.random() < self.oddness:
            self.odd = True
            made[self.chance.choice(["", "x", "#ids", "#accountId", "accountId", "ids/0", "id", "keywords/", "constructor"])] = self.wrong()
        return made

    def reference(self, path, *names):
        """A reference to an earlier call of such a name, or none."""
        earlier = [call for call in self.calls if call[0] in names]
        if not earlier:
            return None
        name, call = self.chance.choice(earlier)
        return self.members(resultOf_=call, name_=name, path_=path)

    def referring(self, made, member, path, *names, often=0.4):
        """Sometimes a member is a reference."""
        found = self.reference(path, *names) if self.chance.random() < often else None
        if found is not None:
            made.pop(member, None)
            made["#" + member] = found
        return made

    def number(self):
        return self.chance.choice([0, 1, 2, 5, 500, 2**53 - 1])

    def email(self):
        return f"e{self.chance.randrange(1, 15)}"

    def mailbox(self):
        return self.chance.choice(["m1", "m2", "m3", "m4"] * 4 + ["m5", "#k0"])

    def blob(self):
        return self.chance.choice([*BLOBS, "r1", "r2", "r3-1", "r3-2-1", "r99", BLOBS[2] + "-2", BLOBS[2] + "-2-1", BLOBS[0][:-1], "r1-1-1-1-1-1-1-1-1-1"])

    def get(self, kind, properties):
        ids = lambda: self.chance.choice([None, self.some([f"{kind}{n}" for n in range(1, 16)], 6)])
        made = self.members(accountId_="a1", ids=ids, properties=lambda: self.chance.choice([None, self.some(properties, 8)]), **(self.fetched() if kind == "e" else {}))
        if kind == "e":
            return self.referring(made, "ids", *self.chance.choice([("/ids", "Email/query"), ("/created", "Email/changes"), ("/list/*/emailIds", "Thread/get")]))
        return self.referring(made, "ids", *(("/list/*/threadId", "Email/get") if kind == "t" else ("/ids", "Mailbox/query")))

    def fetched(self):
        flag = self.chance.random() < 0.5
        return dict(bodyProperties=lambda: self.some(BODY_PROPERTIES, 6), fetchTextBodyValues=flag, fetchHTMLBodyValues=flag, fetchAllBodyValues=flag,
                    maxBodyValueBytes=self.number)

    def changes(self, name):
        made = self.members(accountId_="a1", sinceState_="0123456789abcdef-1", maxChanges=lambda: self.number() or 1)
        return self.referring(made, "sinceState", "/state", name + "/get", often=0.9)

    def email_condition(self):
        test = self.chance.choice([
            {"inMailbox": self.mailbox()}, {"inMailboxOtherThan": ["m1", "m2"]}, {"before": self.chance.choice(DATES)}, {"after": self.chance.choice(DATES)},
            {"minSize": self.number()}, {"maxSize": self.number()}, {"hasKeyword": "$seen"}, {"notKeyword": "work"}, {"allInThreadHaveKeyword": "$flagged"},
            {"someInThreadHaveKeyword": "$seen"}, {"noneInThreadHaveKeyword": "x"}, {"from": "ann"}, {"to": "bob \"a b\""}, {"subject": self.chance.choice(TEXTS)},
            {"cc": "x"}, {"bcc": "y"}, {"header": ["Subject"]}, {"header": ["X-Odd", "odd"]}, {"text": "a"}, {"hasAttachment": True}])
        return {name: self.maybe(value) for name, value in test.items()}

    def mailbox_condition(self):
        test = self.chance.choice([{"parentId": None}, {"parentId": self.mailbox()}, {"name": "a"}, {"role": self.chance.choice(ROLES)}, {"hasAnyRole": True},
                                   {"isSubscribed": False}])
        return {name: self.maybe(value) for name, value in test.items()}

    def filter(self, condition, depth=0):
        if depth > 3 or self.chance.random() < 0.6:
            return self.maybe(condition())
        inner = [self.filter(condition, depth + 1) for _ in range(self.chance.randrange(3))]
        return self.members(operator_=self.chance.choice(["AND", "OR", "NOT"]), conditions_=inner)

    def sort(self, properties):
        comparator = lambda name: self.members(property_=name, isAscending=True, **({"keyword_": "$seen"} if "Keyword" in name else {}))
        return [comparator(self.chance.choice(properties)) for _ in range(self.chance.randrange(4))]

    def asked(self, kind):
        if kind == "Email":
            properties = ["receivedAt", "size", "from", "to", "subject", "sentAt", "hasKeyword", "allInThreadHaveKeyword", "someInThreadHaveKeyword"]
            return dict(filter=lambda: self.filter(self.email_condition), sort=lambda: self.sort(properties), collapseThreads=self.chance.random() < 0.3)
        return dict(filter=lambda: self.filter(self.mailbox_condition), sort=lambda: self.sort(["name", "sortOrder", "parentId"]), sortAsTree=True)

    def query(self, kind):
        return self.members(accountId_="a1", position=lambda: self.chance.choice([0, 1, -1, -99, 10**9]), anchor=self.email, anchorOffset=lambda: self.chance.choice([-1, 0, 3]),
                            limit=self.number, calculateTotal=True, **self.asked(kind))

    def query_changes(self, kind):
        made = self.members(accountId_="a1", sinceQueryState_="x", maxChanges=lambda: self.number() or 1, upToId=self.email, calculateTotal=True, **self.asked(kind))
        return self.referring(made, "sinceQueryState", "/queryState", kind + "/query", often=0.9)

    def parse(self):
        return self.members(accountId_="a1", blobIds_=[self.blob() for _ in range(self.chance.randrange(4))], properties=lambda: self.some(EMAIL_PROPERTIES, 6),
                            **self.fetched())

    def keywords(self):
        return {keyword: self.maybe(True) for keyword in self.some(KEYWORDS)}

    def addresses(self):
        return [self.members(name=lambda: self.chance.choice(TEXTS), email_="bob@example.org") for _ in range(self.chance.randrange(4))]

    def draft(self):
        part = lambda: self.chance.choice([None, [self.members(partId_="1", type="text/plain")]])
        attached = lambda: [self.members(blobId_=self.blob(), type=lambda: "image/png", name=lambda: self.chance.choice(TEXTS), cid="c@x", disposition="attachment")]
        return self.members(mailboxIds_=lambda: {self.mailbox(): True}, keywords=self.keywords, subject=lambda: self.chance.choice(TEXTS), to=self.addresses,
                            **{"from": self.addresses}, cc=self.addresses, sentAt=lambda: "2024-01-02T03:04:05+01:00", receivedAt=lambda: self.chance.choice(DATES),
                            messageId=lambda: ["a@b"], inReplyTo=lambda: ["c@d", "e@f"], textBody=part, attachments=attached,
                            bodyValues=lambda: {"1": self.members(value_=lambda: self.chance.choice(TEXTS))})

    def email_patch(self):
        return self.chance.choice([
            lambda: {"keywords/" + self.chance.choice(KEYWORDS): self.maybe(self.chance.choice([True, None]))}, lambda: {"keywords": self.maybe(self.keywords())},
            lambda: {"mailboxIds": self.maybe({self.mailbox(): True})}, lambda: {"mailboxIds/m1": None, "mailboxIds/" + self.mailbox(): True},
            lambda: {self.chance.choice(["subject", "keywords/a/b", "id", "/keywords", "keywords/", "x/y", "", "bodyValues/1"]): self.wrong()}])()

    def mailbox_patch(self):
        return self.members(name=lambda: self.chance.choice(NAMES), parentId=lambda: self.chance.choice([None, self.mailbox()]), isSubscribed=self.chance.random() < 0.5)

    def set(self, kind, key, create, patch):
        keys = lambda: self.some(["k0", "k1", "", "k/~", "#k0"])
        update = lambda: {self.maybe_key(key()): self.maybe(patch()) for _ in range(self.chance.randrange(4))}
        made = self.members(accountId_="a1", create=lambda: {k: self.maybe(create()) for k in keys()}, update=update, destroy=lambda: [key() for _ in range(self.chance.randrange(2))],
                            onDestroyRemoveEmails=self.chance.random() < 0.2)
        return self.referring(made, "ifInState", "/state", kind + "/get")

    def maybe_key(self, key):
        return self.chance.choice(["", "#", "#k9", "x" * 300, "é", "e01"]) if self.chance.random() < self.oddness else key

    def import_(self):
        one = lambda: self.members(blobId_=self.blob(), mailboxIds_=lambda: {self.mailbox(): True}, keywords=self.keywords, receivedAt=lambda: self.chance.choice(DATES))
        return self.members(accountId_="a1", emails_=lambda: {key: self.maybe(one()) for key in self.some(["k0", "k1", "k2"])})

    def new_mailbox(self):
        return self.members(name_=self.chance.choice(NAMES), parentId=lambda: self.chance.choice([None, self.mailbox()]), isSubscribed=True, role=None, sortOrder=0)

    METHODS = {
        "Core/echo": lambda self: self.members(a=lambda: self.chance.choice(WRONG), b=self.draft, c=lambda: self.filter(self.email_condition)),
        "Mailbox/get": lambda self: self.get("m", MAILBOX_PROPERTIES), "Mailbox/changes": lambda self: self.changes("Mailbox"),
        "Mailbox/query": lambda self: self.query("Mailbox"), "Mailbox/queryChanges": lambda self: self.query_changes("Mailbox"),
        "Mailbox/set": lambda self: self.set("Mailbox", self.mailbox, self.new_mailbox, self.mailbox_patch),
        "Thread/get": lambda self: self.get("t", ["id", "emailIds"]), "Thread/changes": lambda self: self.changes("Thread"),
        "Email/get": lambda self: self.get("e", EMAIL_PROPERTIES), "Email/changes": lambda self: self.changes("Email"),
        "Email/query": lambda self: self.query("Email"), "Email/queryChanges": lambda self: self.query_changes("Email"),
        "Email/parse": lambda self: self.parse(), "Email/set": lambda self: self.set("Email", self.email, self.draft, self.email_patch),
        "Email/import": lambda self: self.import_(),
    }

    def call(self):
        after = [name.replace("/query", "/queryChanges").replace("/get", "/changes") for name, _ in self.calls]
        after = [name for name in after if name in self.METHODS and name.endswith("hanges")]
        name, call = self.chance.choice(list(self.METHODS)), f"c{len(self.calls)}"
        if name.endswith("hanges"):  # (mostly of a state that a call before it gave)
            name = self.chance.choice(after or [name, "Email/get", "Mailbox/get", "Email/query", "Mailbox/query"])
        arguments = self.METHODS[name](self)
        if self.chance.random() < self.oddness:
            self.odd = True
            name = self.chance.choice(["", "Email", "email/get", "Email/copy", "EmailSubmission/set", "error", "Core/echo/x", "Mailbox/get\u0000"])
        if self.chance.random() < self.oddness:
            self.odd = True
            call = self.chance.choice(["c0", "", "x" * 5_000, "é"])
        self.calls.append((name, call))
        return self.maybe([name, self.maybe(arguments), call])

    def request(self):
        calls = [self.call() for _ in range(self.chance.choice([0, 1, 1, 1, 2, 2, 3, 5, 16, 17] if self.oddness else [1, 1, 2, 3, 5]))]
        using = ["urn:ietf:params:jmap:core", "urn:ietf:params:jmap:mail"]
        if self.chance.random() < self.oddness:
            self.odd = True
            using = self.chance.choice([[], using[1:], using * 2, [*using, "urn:ietf:params:jmap:submission"], ["URN:ietf:params:jmap:core"], None])
        made = self.members(using_=using, methodCalls_=calls)
        if self.chance.random() < 0.1:
            made["createdIds"] = self.maybe({"k0": self.chance.choice(["m2", "e1", "x"]), "#k0": "m1"})
        return made


def spell(value, chance):
    """A text of this value: members may be doubled, texts escaped, and white space put in."""
    gap = (lambda: chance.choice(["", "", " ", "\n", "\t\r\n "])) if chance.random() < 0.05 else (lambda: "")
    if isinstance(value, Raw):
        return str(value)
    if isinstance(value, dict):
        texts = [f"{spell(name, chance)}{gap()}:{gap()}{spell(inner, chance)}" for name, inner in value.items()]
        return "{" + gap() + ("," + gap()).join(texts) + gap() + "}"
    if isinstance(value, list):
        return "[" + gap() + ("," + gap()).join(spell(inner, chance) for inner in value) + gap() + "]"
    return json.dumps(value, ensure_ascii=chance.random() < 0.5)


# ---- octets, mutated

PIECES = [b'"', b"\\", b"{", b"}", b"[", b"]", b",", b":", b"\x00", b"\xff", b"\xed\xa0\x80", b"\\ud800", b"1e999", b"-", b"null", b"#", b"/", b"~1", b"e1", b"\r\n",
          b"\n", b"\r", b" ", b"\r\n\r\n", b"Content-Length: 5\r\n", b"Transfer-Encoding: chunked\r\n", b"0\r\n\r\n", b"HTTP/1.1", b";", b"%2F", b"18446744073709551616"]


def mutated(octets, chance):
    """These octets, changed in a few places."""
    octets = bytearray(octets)
    for _ in range(chance.choice([1, 1, 1, 2, 3, 8, 30])):
        at, size = chance.randrange(len(octets) + 1), chance.choice([1, 1, 2, 5, 20, 100, 1_000])
        what = chance.randrange(9)
        if what < 2 and at < len(octets):
            octets[at] ^= 1 << chance.randrange(8)
        elif what == 2:
            octets[at:at + 1] = bytes([chance.randrange(256)])
        elif what == 3:
            del octets[at:at + size]
        elif what == 4:
            octets[at:at] = octets[at:at + size] * chance.choice([1, 1, 2, 50])
        elif what == 5:
            other = chance.randrange(len(octets) + 1)
            octets[at:at + size], octets[other:other + size] = octets[other:other + size], octets[at:at + size]
        elif what == 6:
            octets[at:at] = chance.choice(PIECES)
        elif what == 7 and chance.random() < 0.3:
            del octets[at:]
        elif what == 8 and chance.random() < 0.1:
            octets[at:at] = bytes([chance.choice(b"[\"{\\ a0\r\n\x00/")]) * chance.choice([100, 5_000, 20_000])
    return bytes(octets)


# ---- HTTP, grown

TARGETS = ["/.well-known/jmap", "/jmap/api", "/jmap/upload/a1", f"/jmap/download/a1/{BLOBS[1]}/x?accept=image/png", "/jmap/download/a1/r1/", "/jmap/download/a1/r3-1/a%2Fb",
           "/jmap/upload/%61%31", "/jmap/upload/a2", "/jmap/upload/", "/jmap/upload/a1/", "/jmap/download/a1/r1", "/jmap/download/a1/r1/a/b", "/jmap/download/a1//x", "/",
           "*", "//", "/jmap/api/", "/jmap/api?x", "/JMAP/api", "/jmap/../jmap/api", "http://x/jmap/api", "http://x", "h+.-1://u@[::1]:1/.well-known/jmap", "jmap/api",
           "/jmap/download/a1/%/%zz?accept=%", "/jmap/download/a1/r1/x?accept=text/plain&a", "/jmap/download/a1/r2/x?accept=a%0D%0Ab:c", "/jmap/eventsource?types=*",
           "/" + "a" * 9_000, "/é", "/jmap/api#x", "/\x7f", "/jmap/api\u00ff"]
FIELDS = ["Host: x", "Host:x", "host: x\t", "X:", "X: \x7f", "X: \x00", "X : y", ": y", "X-Y~!: é", " folded: x", "\tx", "X", "Expect: 100-continue", "expect: 100-CONTINUE",
          "Expect: x", "Connection: close", "Connection: keep-alive, upgrade", "Upgrade: h2c", "Content-Type: application/json", "Content-Type: text/html\x01",
          "Content-Type: " + "a" * 200, "Authorization: Bearer secret", "Authorization: Basic YTpi", "X: " + "a" * 17_000, "Cookie: a=b", "Accept-Encoding: gzip"]
LENGTHS = ["{n}", "{n}", "0", "-1", "+{n}", " {n} ", "{n},{n}", "{n}.0", "0x10", "", "1", "99999999999999999999999999", "18446744073709551615", "000{n}", "10000001", "50000001",
           "{n}\r\nContent-Length: {n}", "{more}", "{less}"]
CODINGS = ["chunked", "Chunked", "gzip, chunked", "chunked, chunked", "identity", "", "chunked;a=b", "chunked\r\nTransfer-Encoding: chunked"]
LINES = ["{n:x}\r\n", "{n:X}\r\n", "{n:016x}\r\n", "{n:017x}\r\n", "{n:x};a=b\r\n", "{n:x} \t\r\n", "{n:x}; \x00é\r\n", "{n:x}\n", " {n:x}\r\n", "0x{n:x}\r\n", "-{n:x}\r\n", "\r\n",
         "{n:x};" + "a" * 300 + "\r\n", "{n:x};" + "a" * 20_000 + "\r\n", "ffffffffffffffff\r\n", "{more:x}\r\n", "989681\r\n"]


def chunked(body, chance, wrong):
    """The body in chunks."""
    made, at = b"", 0
    while at < len(body):
        size = chance.choice([1, 2, 10, 100, 5_000])
        data = body[at:at + size]
        line = chance.choice(LINES if chance.random() < wrong else LINES[:6][:1])
        made += line.format(n=len(data), more=len(data) + 1).encode() + data + (chance.choice([b"\n", b"", b"\r", b"xx"]) if chance.random() < wrong / 4 else b"\r\n")
        at += size
        if len(made) > 60_000 and size < 100:
            made += f"{len(body) - at:x}\r\n".encode() + body[at:] + b"\r\n" if at < len(body) else b""
            break
    trailer = chance.choice(["", "", "X: y\r\n", "X\r\n", "X: " + "a" * 16_400 + "\r\n", "\x00"]) if chance.random() < wrong else ""
    return made + (chance.choice(["0\r\n", "000\r\n", "0;x\r\n"]) + trailer + chance.choice(["\r\n", "\n"] if chance.random() < wrong else ["\r\n"])).encode()


def plain(body, target="/jmap/api", method="POST"):
    head = f"{method} {target} HTTP/1.1\r\nHost: x\r\nAuthorization: Bearer secret\r\nContent-Type: application/json\r\nContent-Length: {len(body)}\r\n\r\n"
    return head.encode() + body


def odd_head(body, chance):
    """A request whose head may have any fault, with this body."""
    wrong = chance.choice([0, 0.05, 0.3])
    pick = lambda right, others: chance.choice(others) if chance.random() < wrong else right
    target = chance.choice(TARGETS[:6] if chance.random() > 0.4 else TARGETS)
    method = "POST" if target in ("/jmap/api", "/jmap/upload/a1", "/jmap/upload/%61%31") else "GET"
    method = pick(method, ["GET", "POST", "HEAD", "OPTIONS", "get", "", "P OST", "P\x00", "PO/ST", "\x16\x03\x01", "PRI"])
    end = pick("\r\n", ["\n", "\r", "\r\r\n", ""])
    fields = ["Host: x"] + chance.choices(FIELDS[:3] + FIELDS[12:13] + FIELDS[15:19] if wrong < 0.3 else FIELDS, k=chance.randrange(4))
    fields.append(pick("Authorization: Bearer secret", ["Authorization: bearer  secret", "Authorization: Bearer secre", "Authorization: Bearer\tsecret", "Authorization:",
                                                        "X: y", "Authorization: Bearer secret\r\nAuthorization: Bearer secret", "AUTHORIZATION: BEARER secret"]))
    framing = chance.randrange(5)
    if framing < 3 and (body or framing):
        fields.append("Content-Length: " + pick("{n}", LENGTHS).format(n=len(body), more=len(body) + 7, less=len(body) // 2))
    if framing == 3 or framing == 2 and chance.random() < wrong:
        fields.append("Transfer-Encoding: " + pick("chunked", CODINGS))
        body = chunked(body, chance, wrong)
    if chance.random() < wrong / 8:
        fields += [f"X-{n}: y" for n in range(chance.choice([100, 1_500]))]
    chance.shuffle(fields)
    start = f"{method}{pick(' ', ['', '  ', chr(9)])}{target} {pick('HTTP/1.1', ['HTTP/1.0', 'HTTP/1.2', 'HTTP/2.0', 'http/1.1', '', 'HTTP/1.1 '])}"
    head = pick("", ["\r\n", "\n\n", " ", "\r", "\r\n" * 9_000]) + end.join([start, *fields, "", ""])
    return head.encode("utf-8" if chance.random() < 0.8 else "latin-1", "replace") + body


class Input:
    """What one client sends: pieces, with a wait before each, and whether it vanishes then."""

    def __init__(self, number):
        chance = random.Random(number)
        grower = Grower(chance)
        body = spell(grower.request(), chance).encode("utf-8", "surrogatepass")
        self.whole = not grower.odd
        kind = chance.randrange(100)
        if chance.random() < 0.15:
            body, self.whole = mutated(body, chance), False
        if kind < 60:
            octets = plain(body)
        elif kind < 85:
            octets = odd_head(chance.choice([body, b"", UPLOADS[0]]), chance)
        elif kind < 95:
            octets = mutated(odd_head(body, chance), chance)
        elif kind < 97:
            octets = plain(UPLOADS[chance.randrange(3)], "/jmap/upload/a1")
        elif kind < 98:
            size = chance.choice([100_000, 1_000_000, 3_000_000, MAX_REQUEST, MAX_REQUEST + 1] if chance.random() < 0.1 else [20_000, 100_000])
            piece = chance.choice([b" ", b"[", b'"a":1,', b'"\\u0000":[],'])
            filling = (piece * (size // len(piece)) + b" " * size)[:max(0, size - len(body))]
            octets = plain(body[:1] + filling + body[1:])
        else:
            octets = plain(b"", chance.choice(TARGETS), "GET")
        if chance.random() < 0.05:
            octets += chance.choice([plain(b"{}"), octets[:20_000], b"\r\n", b"x" * 3_000])
        self.octets = octets
        cuts = sorted(chance.randrange(len(octets) + 1) for _ in range(chance.choice([1, 3, 9]))) if chance.random() < 0.1 else []
        self.pieces = [octets[one:other] for one, other in zip([0, *cuts], [*cuts, len(octets)])]
        self.wait = chance.choice([0, 0.001, 0.02])
        self.vanishes = chance.random() < 0.03 and b"/set" not in octets and b"/import" not in octets
