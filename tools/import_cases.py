"""What the tests of imports share: mails, broken ones among them, and calls of the tools."""
import concurrent.futures
import json
import os
import subprocess
import threading

TOOLS = os.path.dirname(os.path.realpath(__file__))
BEGIN = b"From ann@quay.example Tue Oct  7 18:00:00 2025\n"
ANN = b"From: Ann Quay <Ann@Quay.example>\n"

# Each mail, what its document must have, and what must be told of it.
MAILS = {
    "whole": (
        ANN + b"To: ben@quay.example, \"Sea, Cy\" <cy@quay.example>\nCc: =?utf-8?q?J=C3=BCrgen?= <j@quay.example>\n"
        b"Message-ID: <1@quay>\nDate: Wed, 8 Oct 2025 01:30:00 +0200\nSubject: Moorings\n for the winter\n\nThe old sea.\n",
        {"id": "<1@quay>", "from": ["ann@quay.example"], "to": ["ben@quay.example", "cy@quay.example"],
         "people": ["Ann Quay Ann@Quay.example", "ben@quay.example", "Sea, Cy cy@quay.example", "Jürgen j@quay.example"],
         "subject": "Moorings for the winter", "body": "The old sea.\n", "sent": "2025-10-07T23:30:00Z", "day": "/2025/10/07"},
        None),
    "a charset in the subject that isn't known": (
        ANN + b"Message-ID: <2@quay>\nSubject: =?iso-8859-99?Q?Caf=E9?= harbour\n\nx\n",
        {"subject": "Café harbour"}, "subject: unknown charset iso-8859-99"),
    "a charset of the body that isn't known": (
        ANN + b"Message-ID: <3@quay>\nContent-Type: text/plain; charset=x-sea\n"
        b"Content-Transfer-Encoding: quoted-printable\n\nthe =C3=8Ele\n",
        {"body": "the Île\n"}, "body: unknown charset x-sea"),
    "a codec that is no charset": (
        ANN + b"Message-ID: <4@quay>\nContent-Type: text/plain; charset=hex\n\n61\n",
        {"body": "61\n"}, "body: unknown charset hex"),
    "no Message-ID": (ANN + b"Subject: lost\n\nwithout a name\n", {"subject": "lost"}, None),
    "HTML alone": (
        ANN + b"Message-ID: <5@quay>\nContent-Type: text/html; charset=utf-8\n\n<html><head><style>p {color: red}</style>"
        b"<script>if (a < b) alert('wreck')</script></head><body><p>The <b>o</b>ld&nbsp;sea<br>and&amp;wind<td>rain</body></html>\n",
        {"body": "The old sea\nand&wind\nrain"}, None),
    "HTML of tags that don't end": (
        ANN + b"Message-ID: <22@quay>\nContent-Type: text/html\n\n" + b"<a " * 30000 + b"\n",
        {"body": " ".join(["<a"] * 30000)}, None),
    "parts in parts": (
        ANN + b"Message-ID: <6@quay>\nMIME-Version: 1.0\nContent-Type: multipart/mixed; boundary=a\n\n--a\n"
        b"Content-Type: multipart/alternative; boundary=b\n\n--b\nContent-Type: text/plain\n\nplain words\n--b\n"
        b"Content-Type: text/html\n\n<p>other words</p>\n--b--\n--a\nContent-Type: application/pdf; name=tide.pdf\n"
        b"Content-Transfer-Encoding: base64\nContent-Disposition: attachment; filename=tide.pdf\n\nJVBERi0xLjcK\n--a\n"
        b"Content-Type: message/rfc822\n\nSubject: inner\n\nsent on\n--a--\n",
        {"body": "plain words\nsent on"}, None),
    "alternatives of which the plain one is empty": (
        ANN + b"Message-ID: <7@quay>\nMIME-Version: 1.0\nContent-Type: multipart/alternative; boundary=b\n\n--b\n"
        b"Content-Type: text/plain\n\n \n--b\nContent-Type: text/html\n\n<p>gulls</p>\n--b--\n", {"body": "gulls"}, None),
    "8-bit headers": (
        b"From: J\xc3\xbcrgen <j@quay.example>\nTo: Ren\xe9e <r@quay.example>\nMessage-ID: <8@quay>\n"
        b"Subject: \xc3\x85l\xc3\xb8\n\nx\n",
        {"from": ["j@quay.example"], "people": ["Jürgen j@quay.example", "Renée r@quay.example"], "subject": "Ålø"}, None),
    "a letter cut by two encoded words": (
        ANN + b"Message-ID: <9@quay>\nSubject: =?utf-8?Q?=C3?=\n =?utf-8?Q?=8Ele?= =?utf-8?B?IGRlIG1lcg==?=\n\nx\n",
        {"subject": "Île de mer"}, None),
    "an encoded word that is none": (
        ANN + b"Message-ID: <10@quay>\nSubject: =?utf-8?B?A?=\n\nx\n", {"subject": "A"}, "subject: "),
    "a date in year 0": (
        ANN + b"Message-ID: <11@quay>\nDate: Sat, 01 Jan 0000 00:00:00 +0000\n\nx\n",
        {"sent": None, "day": None}, "date: Sat, 01 Jan 0000"),
    "a date in year 9999": (
        ANN + b"Message-ID: <12@quay>\nDate: Fri, 31 Dec 9999 23:59:59 -0800\n\nx\n", {"sent": None}, "date: Fri, 31 Dec 9999"),
    "a date that is none": (
        ANN + b"Message-ID: <13@quay>\nDate: yesterday\n\nx\n", {"sent": None}, "date: yesterday"),
    "a date without a zone": (
        ANN + b"Message-ID: <14@quay>\nDate: Tue, 7 Oct 2025 18:00:00 -0000 (at sea)\n\nx\n", {"sent": "2025-10-07T18:00:00Z"}, None),
    "lines that begin with From": (
        ANN + b"Message-ID: <15@quay>\n\nFrom the quay at 18:00\n\nFrom Ann\n>From here\n>>From there\n> From x\n",
        {"body": "From the quay at 18:00\n\nFrom Ann\nFrom here\n>From there\n> From x\n"}, None),
    "a NUL byte": (ANN + b"Message-ID: <16@quay>\nSubject: a\x00b\n\nsea\x00wind\n", {"body": "sea\x00wind\n"}, None),
    "parts without a boundary": (
        ANN + b"Message-ID: <17@quay>\nMIME-Version: 1.0\nContent-Type: multipart/mixed\n\nkeel\n", {"body": "keel\n"}, "form: "),
    "parts that don't end": (
        ANN + b"Message-ID: <18@quay>\nMIME-Version: 1.0\nContent-Type: multipart/mixed; boundary=a\n\n--a\n"
        b"Content-Type: text/plain\n\nanchor\n", {"body": "anchor"}, "form: "),
    "base64 that is broken": (
        ANN + b"Message-ID: <19@quay>\nContent-Transfer-Encoding: base64\n\nc2Vh!!IA\n", {"body": "sea "}, "form: "),
    "addresses that are none": (
        b"From: <<ann@quay.example\nTo: undisclosed recipients\nMessage-ID: <20@quay>\n\nx\n", {"from": ["ann@quay.example"]}, None),
    "parts nested too deep": (
        ANN + b"Message-ID: <21@quay>\nMIME-Version: 1.0\n" + b"".join(
            b"Content-Type: multipart/mixed; boundary=b%d\n\n--b%d\n" % (n, n) for n in range(2000)) + b"\nabyss\n",
        {"id": "<21@quay>"}, "parts: "),
    "no header": (b"\nwords alone\n", {"body": "words alone\n", "from": [], "people": []}, None),
}


class Test:
    """How many things were looked at, and how many were wrong."""

    def __init__(self):
        self.seen = self.wrong = 0
        self.lock = threading.Lock()

    def same(self, what, got, wanted):
        with self.lock:
            self.count(what, got, wanted)

    def count(self, what, got, wanted):
        self.seen += 1
        if got != wanted:
            self.wrong += 1
            print(f"from-test: FAILED: {what}", f"- {wanted!r}"[:600], f"+ {got!r}"[:600], sep="\n")

    def has(self, what, text, part):
        self.same(what, part if part in text else text, part)


def side_by_side(*tests):
    """Runs tests that don't wait for each other, each a function with what it is given."""
    with concurrent.futures.ThreadPoolExecutor() as pool:
        for running in [pool.submit(*test) for test in tests]:
            running.result()


def call(*words, given=b""):
    """What a command writes: its status, its lines, and standard error."""
    done = subprocess.run(words, input=given, capture_output=True, check=False, timeout=120)
    return done.returncode, done.stdout, done.stderr.decode()


def tool(name, *words):
    return call(f"{TOOLS}/{name}", *words)


def requests(printed):
    return [json.loads(line) for line in printed.splitlines()]


def docs(printed):
    return [request["doc"] for request in requests(printed) if request["op"] == "add"]


def lint(test, what, printed):
    """Nothing of the lines would be refused or ignored."""
    status, said, _ = call(f"{TOOLS}/lint", given=printed)
    test.same(f"{what}, by lint", (status, said.decode()), (0, ""))


def mbox(mails):
    return b"".join(BEGIN + mail + b"\n" for mail in mails)


def write(folder, name, data):
    path = os.path.join(os.fsencode(folder), name)
    os.makedirs(os.path.dirname(path), exist_ok=True)
    with open(path, "wb") as file:
        file.write(data)
    os.utime(path, (1759860000, 1759860000))
