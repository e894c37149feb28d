"""What scripts share that serve a real store and ask the gateway: its process, a client of JMAP, a copy that a client keeps by /changes,
a relay between the gateway and the store, and another client of the store."""

import collections
import email
import email.message
import email.policy
import email.utils
import http.client
import imaplib
import json
import os
import pathlib
import re
import socket
import subprocess
import threading
import time

HERE = pathlib.Path(__file__).resolve().parent.parent
PROGRAM = os.environ.get("JMAPGATE", str(HERE / "jmapgate"))
STORE = 14300  # where tools/dovecot and tools/cyrus listen
USING = ["urn:ietf:params:jmap:core", "urn:ietf:params:jmap:mail"]
TOKEN = {"Authorization": "Bearer secret"}
imaplib.AllowedVersions += ("IMAP4REV2",)


def wrong(what, *told):
    """Ends the script; in another thread, that thread."""
    raise SystemExit("\n  ".join([f"wrong: {what}", *(str(it)[:1500] for it in told)]))


def expect(what, told, wanted):
    if told != wanted:
        wrong(what, f"told   {told!r}", f"wanted {wanted!r}")


# ---- the gateway


def serve(port, store=STORE, **surroundings):
    """A gateway over a store."""
    words = ["serve", "--listen", f"127.0.0.1:{port}", "--store", f"127.0.0.1:{store}", "--user", "alice", "--base", f"http://127.0.0.1:{port}"]
    return subprocess.Popen([PROGRAM, *words], env=dict(os.environ, JMAPGATE_PASSWORD="pw", JMAPGATE_TOKEN="secret", **surroundings))


def taken(process):
    """What a process takes: KiB of memory now and at most, and descriptors."""
    folder = pathlib.Path("/proc") / str(process.pid)
    kib = {name: int(count) for name, count in re.findall(r"^(\w+):\s+(\d+) kB", (folder / "status").read_text(), re.M)}
    return kib["VmRSS"], kib["VmHWM"], len(os.listdir(folder / "fd"))


# ---- a client


class Unanswered(Exception):
    """The link ended before an answer had come whole."""


class Client:
    """Asks the gateway at a port. It waits for one that doesn't listen yet, unless it isn't patient."""

    def __init__(self, port, patient=True):
        self.port, self.patient = port, patient

    def connected(self):
        for _ in range(600):
            try:
                return socket.create_connection(("127.0.0.1", self.port), timeout=600)
            except ConnectionError as refused:
                if not self.patient:
                    raise Unanswered("nobody listens") from refused
                time.sleep(0.05)
        wrong("the gateway doesn't listen")

    def send(self, method, path, body=None, kind="application/json"):
        """The status and the body of an answer."""
        link = http.client.HTTPConnection("127.0.0.1", self.port)
        link.sock = self.connected()
        try:
            link.request(method, path, body, {**TOKEN, "Content-Type": kind})
            told = link.getresponse()
            return told.status, told.read()
        except (ConnectionError, http.client.HTTPException) as end:
            raise Unanswered(repr(end)) from end
        finally:
            link.close()

    def answers(self, *calls):
        """The names and the arguments of the answers to calls."""
        status, octets = self.send("POST", "/jmap/api", request(*calls))
        if status != 200:
            wrong("the status", status, octets)
        return [(name, answer) for name, answer, _ in json.loads(octets)["methodResponses"]]

    def ask(self, *calls):
        """The answers to calls, none of which is refused."""
        answers = self.answers(*calls)
        for (name, _), answer in zip(calls, answers):
            if answer[0] != name:
                wrong(f"the answer to {name}", answer, calls)
        return [answer for _, answer in answers]

    def call(self, name, **given):
        return self.ask((name, given))[0]

    def upload(self, octets, kind="application/octet-stream"):
        status, told = self.send("POST", "/jmap/upload/a1", octets, kind)
        expect("an upload's status", status, 201)
        return json.loads(told)["blobId"]

    def download(self, blob):
        status, octets = self.send("GET", f"/jmap/download/a1/{blob}/x?accept=text/plain")
        expect(f"the status of blob {blob}", status, 200)
        return octets


def request(*calls):
    """The body of a request with these calls."""
    return json.dumps({"using": USING, "methodCalls": [[name, {"accountId": "a1", **given}, f"c{at}"] for at, (name, given) in enumerate(calls)]}).encode()


# ---- the relay, and what is appended

Appended = collections.namedtuple("Appended", "folder flags date octets")
Link = collections.namedtuple("Link", "commands appended")  # what the gateway sent in a link life


class Relay:
    """Hands octets on between the gateway and the store; of each link that ended it has the commands, and the messages sent whole."""

    def __init__(self, port, store=STORE):
        self.door, self.store = socket.create_server(("127.0.0.1", port)), store
        self.links, self.open, self.handed = [], 0, 0
        self.changed = threading.Condition()
        threading.Thread(target=self.accept, daemon=True).start()

    @property
    def appended(self):
        return [it for link in self.links for it in link.appended]

    def accept(self):
        while True:
            client, _ = self.door.accept()
            with self.changed:
                self.open += 1
            threading.Thread(target=self.serve, args=(client,), daemon=True).start()

    def serve(self, client):
        store, sent = socket.create_connection(("127.0.0.1", self.store)), bytearray()
        other = threading.Thread(target=self.hand_on, args=(store, client, None), daemon=True)
        other.start()
        self.hand_on(client, store, sent)
        other.join()
        for one in (client, store):
            one.close()
        with self.changed:
            self.links.append(Link(*read_commands(bytes(sent))))
            self.open -= 1
            self.changed.notify_all()

    def hand_on(self, source, target, kept):
        """Hands on until the source ends; what a target that went doesn't take is dropped."""
        there = True
        while piece := received(source):
            if kept is not None:
                kept += piece
            try:
                if there:
                    target.sendall(piece)
            except OSError:
                there = False
            with self.changed:
                self.handed += len(piece)
                self.changed.notify_all()
        try:
            target.shutdown(socket.SHUT_WR)
        except OSError:
            pass

    def wait_for(self, holds, seconds):
        """Waits until something holds of the relay; whether it does."""
        with self.changed:
            return self.changed.wait_for(holds, seconds)


def received(link):
    try:
        return link.recv(1 << 16)
    except ConnectionError:
        return b""


def read_commands(octets):
    """The names of the commands in what the gateway sent, and what it appended."""
    names, appended, at = [], [], 0
    while at < len(octets):
        end = octets.find(b"\n", at) + 1 or len(octets)
        line, at = octets[at:end], end
        words = line.split()
        names.append(b" ".join(words[1:3] if words[1:2] == [b"UID"] else words[1:2]).decode())
        while size := re.search(rb"\{(\d+)\}\r\n$", line):
            literal, at = octets[at:at + int(size[1])], at + int(size[1])
            asked = re.search(rb"APPEND (.*) \((.*)\) \"(.*)\" \{", line)
            if asked and len(literal) == int(size[1]):
                appended.append(Appended(*asked.groups(), literal))
            end = octets.find(b"\n", at) + 1 or len(octets)
            line, at = octets[at:end], end
    return names, appended


# ---- a copy


class Copy:
    """What a client has of a type, by id, kept by /changes and /get from the first state of the epoch on."""

    def __init__(self, client, kind, properties=None):
        self.client, self.kind, self.properties = client, kind, properties
        self.rows, self.state = {}, first_state(client)

    def get(self, ids):
        return self.client.call(f"{self.kind}/get", ids=ids, properties=self.properties)

    def changes(self, most=None):
        """What changed since the state, `most` ids at most where that is said."""
        answer = self.client.call(f"{self.kind}/changes", sinceState=self.state, maxChanges=most)
        if most and len(answer["created"]) + len(answer["updated"]) + len(answer["destroyed"]) > most:
            wrong(f"{self.kind}/changes: more than {most}", answer)
        return answer

    def step(self, most=None):
        """Takes an answer; whether there is more to take."""
        answer = self.changes(most)
        wanted = answer["created"] + answer["updated"]
        got = self.get(wanted) if wanted else {"list": [], "notFound": []}
        for row in got["list"]:
            self.rows[row["id"]] = row
        for gone in answer["destroyed"] + got["notFound"]:
            self.rows.pop(gone, None)
        self.state = answer["newState"]
        return answer["hasMoreChanges"]

    def follow(self, most=None):
        while self.step(most):
            pass

    def check(self, where):
        """Whether the copy is what a fresh fetch of everything gives."""
        compare(where, self, self.get(None))


def compare(where, copy, fresh):
    rows = {row["id"]: row for row in fresh["list"]}
    if rows != copy.rows or fresh["state"] != copy.state:
        differing = [f"{key}: copy {copy.rows.get(key)}, fresh {rows.get(key)}" for key in sorted({*rows, *copy.rows}) if rows.get(key) != copy.rows.get(key)]
        wrong(f"{where}: the copy of {copy.kind} differs, at {copy.state} and {fresh['state']}", *differing)


def first_state(client):
    return client.call("Mailbox/get", ids=[])["state"].split("-")[0] + "-0"


# ---- another client of the store

KEYWORDS = {"\\Seen": "$seen", "\\Flagged": "$flagged", "\\Answered": "$answered", "\\Draft": "$draft"}  # by their flags
PEOPLE = ["Ann <ann@x>", "bob@x", "Zoë <zoe@x>", "ann@y, Bob <bob@x>"]


def text_of(number, chance):
    """A message: plain or in another encoding, with another form of its text, or with an attachment."""
    message = email.message.EmailMessage(policy=email.policy.SMTP)
    message["Message-ID"] = f"<{number}@x>"
    message["In-Reply-To"] = f"<{chance.randrange(1, number + 1)}@x>"
    message["Subject"] = f"Re: s{chance.randrange(3)}"
    for name in ("From", "To", "Cc"):
        if chance.randrange(5):
            message[name] = chance.choice(PEOPLE)
    if chance.randrange(5):
        message["Date"] = email.utils.formatdate(chance.randrange(1, 2**30))
    words = " ".join(chance.choice(["at", "ten", "Grüße", "=", "\n", "日本"]) for _ in range(chance.randrange(40)))
    message.set_content(words, cte=chance.choice(["8bit", "base64", "quoted-printable"]))
    if chance.randrange(2):
        message.add_alternative(f"<p>{words}</p>", subtype="html", cte="base64")
    if chance.randrange(2):
        message.add_attachment(chance.randbytes(chance.randrange(2000)), maintype="image", subtype="png", filename="ü.png")
    return message.as_bytes()


class OtherClient:
    """Another client of the store, by IMAP; `few` is how many messages it delivers to at most."""

    def __init__(self, chance, few):
        self.imap = imaplib.IMAP4("127.0.0.1", STORE)
        self.imap.login("alice", "pw")
        self.chance, self.few, self.made = chance, few, 0

    def listed(self):
        """Of each folder that can be selected its delimiter, and whether it is subscribed."""
        self.imap.xatom("LIST", '""', '"*"', "RETURN (SUBSCRIBED)")
        told = [re.fullmatch(r'\((.*)\) "(.)" "?([^"]*)"?', line.decode()) for line in self.imap.response("LIST")[1]]
        return {it[3]: (it[2], r"\Subscribed" in it[1]) for it in told
                if not re.search(r"\\(NoSelect|NonExistent)", it[1], re.I)}

    @property
    def folders(self):
        """The names of the folders that can be selected, INBOX first."""
        return sorted(self.listed(), key=lambda it: (it != "INBOX", it))

    def select(self, folder):
        self.imap.select(f'"{folder}"')

    def uids(self, folder):
        self.select(folder)
        return self.imap.uid("SEARCH", "ALL")[1][0].split()

    def deliver(self, folder):
        self.made += 1
        self.imap.append(f'"{folder}"', None, imaplib.Time2Internaldate(self.chance.randrange(1, 2**30)), text_of(self.made, self.chance))

    def change(self):
        """Changes something; what it did."""
        chance, folders = self.chance, self.folders
        folder = chance.choice(folders)
        uids = self.uids(folder)
        what = chance.randrange(13)
        if (what < 3 or what > 8) and sum(len(self.uids(f)) for f in folders) < self.few:
            self.deliver(folder)
        elif what == 3 and uids:
            self.select(folder)
            self.imap.uid("STORE", chance.choice(uids), chance.choice(["+FLAGS", "-FLAGS"]), chance.choice([r"(\Seen)", r"(\Flagged)", "(note)", r"(\Deleted)"]))
        elif what == 4 and uids:
            self.select(folder)
            self.imap.uid("MOVE", chance.choice(uids), f'"{chance.choice(folders)}"')
        elif what == 5 and uids:
            self.select(folder)
            self.imap.uid("STORE", chance.choice(uids), "+FLAGS", r"(\Deleted)")
            self.imap.expunge()
        elif what == 6 and len(folders) < 6:
            self.imap.create(f"F{self.made}x{chance.randrange(10**6)}")
        elif what == 7 and len(folders) > 1:
            self.imap.unselect()
            self.imap.rename(f'"{chance.choice(folders[1:])}"', f"R{self.made}x{chance.randrange(10**6)}")
        elif what == 8 and len(folders) > 3:
            self.imap.unselect()
            self.imap.delete(f'"{chance.choice(folders[1:])}"')
        return what

    def messages(self):
        """Of each visible message its folder, keywords, size, date, Message-ID, subject, UID and octets."""
        for folder in self.folders:
            self.select(folder)
            parts = self.imap.uid("FETCH", "1:*", "(UID FLAGS RFC822.SIZE INTERNALDATE BODY.PEEK[])")[1]
            for place, part in enumerate(parts):
                if not isinstance(part, tuple):
                    continue
                items = part[0] + (parts[place + 1] if isinstance(parts[place + 1], bytes) else b"")
                flags = {flag.decode() for flag in imaplib.ParseFlags(items)} - {r"\Recent"}
                if r"\Deleted" in flags:
                    continue
                message = email.message_from_bytes(part[1])
                date = time.strftime("%Y-%m-%dT%H:%M:%SZ", time.gmtime(time.mktime(imaplib.Internaldate2tuple(items))))
                yield Stored(folder, {KEYWORDS.get(flag, flag): True for flag in flags}, int(re.search(rb"RFC822.SIZE (\d+)", items)[1]), date,
                             message["Message-ID"], message["Subject"], int(re.search(rb"UID (\d+)", items)[1]), part[1])


Stored = collections.namedtuple("Stored", "folder keywords size date message_id subject uid octets")
