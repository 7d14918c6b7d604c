"""What can be found of a mail: its texts, people and date, as far as they can be read where the mail is broken.

What can't be read as it was meant is named in a list, `troubles`, that each function is given.
"""
import binascii
import datetime
import email
import email.parser
import email.utils
import hashlib
import html
import itertools
import quopri
import re

ENCODED_WORD = re.compile(rb"=\?([^?*\s]+)(?:\*[^?\s]*)?\?([bBqQ])\?([^?]*)\?=")
BETWEEN_ENCODED_WORDS = re.compile(rb"(?<=\?=)\s+(?==\?)")
FOLD = re.compile(rb"\r?\n[ \t]*")
ADDRESS = re.compile(r"[^\s<>()\[\],;:\"]+@[^\s<>()\[\],;:\"]+")
# A date's year below 1000, which the library takes as one of two digits; and what of a date is no year.
YEAR_BELOW_1000 = re.compile(r"\b0\d\d\d\b")
ZONE = re.compile(r"[+-]\d{4}\b|\(.*")
# Names of charsets that say nothing.
NO_CHARSET = {"", "us-ascii", "ascii", "unknown-8bit", "unknown", "x-unknown", "default", "8bit", "7bit"}
# The years whose days are all dates for an index.
YEARS = range(1678, 2262)
# What isn't text in HTML. It is no html.parser, whose time grows with the square of a page of tags that don't end.
MARKUP = re.compile(r"<!--.*?(?:-->|\Z)|<(script|style)\b.*?(?:</\1 ?>|\Z)|</?(?P<tag>[a-z][^\s/<>]*)[^<>]*>|<[!?][^<>]*>", re.I)
# Tags that stand inside words; all others stand between them.
INLINE = set("a abbr b big cite code del em font i ins mark q s small span strike strong sub sup tt u wbr".split())


def attempt(read, instead, troubles, where):
    """What a call reads; something instead where the library fails on a broken mail, for which it has many exceptions."""
    try:
        return read()
    except Exception as why:
        troubles.append(f"{where}: {why or type(why).__name__}")
        return instead


def parsed(data, troubles):
    """A mail of these bytes; where its parts can't be told apart, its headers and the rest as one text."""
    mail = attempt(lambda: email.message_from_bytes(data), None, troubles, "parts")
    return email.parser.BytesHeaderParser().parsebytes(data) if mail is None else mail


# ---- bytes as text

def decoded(data, charset, troubles, where):
    """Text of bytes: by their charset; by UTF-8 where they name none that is known, else by Windows-1252."""
    if charset.lower() not in NO_CHARSET:
        try:
            return data.decode(charset, "replace")
        except (LookupError, ValueError):
            troubles.append(f"{where}: unknown charset {charset}")
    try:
        return data.decode("utf-8-sig")
    except UnicodeDecodeError:
        return data.decode("cp1252", "replace")


def bytes_of_word(word, troubles, where):
    """The charset and the bytes of an encoded word of a header."""
    charset, code, text = word.groups()
    if code in b"qQ":
        data = quopri.decodestring(text, header=True)
    else:
        data = attempt(lambda: binascii.a2b_base64(text + b"=" * (-len(text) % 4)), text, troubles, where)
    return charset.decode("ascii", "replace").lower(), data


def header_text(raw, troubles, where):
    """A header as text: encoded words as what they stand for, those of one charset as one, since they may cut a letter."""
    raw = BETWEEN_ENCODED_WORDS.sub(b"", raw)
    pieces, end = [], 0
    for word in ENCODED_WORD.finditer(raw):
        pieces += [("", raw[end:word.start()]), bytes_of_word(word, troubles, where)]
        end = word.end()
    pieces.append(("", raw[end:]))
    runs = itertools.groupby((piece for piece in pieces if piece[1]), key=lambda piece: piece[0])
    texts = (decoded(b"".join(data for _, data in run), charset, troubles, where) for charset, run in runs)
    return " ".join("".join(texts).split())


def raw_headers(mail, name):
    """The bytes of each header of a name, on one line."""
    found = (str(value) for key, value in mail.raw_items() if key.lower() == name)
    return [FOLD.sub(b" ", value.encode("utf-8", "surrogateescape")).strip() for value in found]


# ---- what a mail has

def identifier_of(mail, data, troubles):
    """A mail's Message-ID; where it has none, a digest of what no mail program changes."""
    for raw in raw_headers(mail, "message-id"):
        text = header_text(raw, troubles, "message-id")
        if text.strip("<> "):
            return text
    headers = [raw for name in ("from", "to", "date", "subject") for raw in raw_headers(mail, name)]
    body = data.partition(b"\n\n")[2].rstrip(b"\n")
    return "sha256:" + hashlib.sha256(b"\n".join([*headers, body])).hexdigest()


def subject_of(mail, troubles):
    return " ".join(header_text(raw, troubles, "subject") for raw in raw_headers(mail, "subject"))


def people_of(mail, name, troubles):
    """The names and addresses of a header, as pairs; a header without an address is a name."""
    people = []
    for raw in raw_headers(mail, name):
        pairs = attempt(lambda: email.utils.getaddresses([raw.decode("latin-1")]), [], troubles, name)
        pairs = [[header_text(part.encode("latin-1"), troubles, name) for part in pair] for pair in pairs if pair[1]]
        if not any("@" in address for _, address in pairs):
            text = header_text(raw, troubles, name)
            pairs = [("", address) for address in ADDRESS.findall(text[:5000])] or pairs or [(text, "")]
        people += pairs
    return people


def date_of(mail, troubles):
    """When a mail was sent, in UTC; None where it doesn't say so, or names no day of these years."""
    raw = raw_headers(mail, "date")
    if not raw:
        return None
    text = header_text(raw[0][:200], troubles, "date")
    sent = attempt(lambda: in_utc(email.utils.parsedate_to_datetime(text)), None, [], "date")
    if sent and sent.year in YEARS and not YEAR_BELOW_1000.search(ZONE.sub("", text)):
        return sent
    troubles.append(f"date: {text[:60] or 'of no text'}")
    return None


def in_utc(time):
    """A time without a zone is taken as one in UTC."""
    return (time if time.tzinfo else time.replace(tzinfo=datetime.timezone.utc)).astimezone(datetime.timezone.utc)


def html_text(page):
    """The text of an HTML page, without its tags, its comments, its scripts and its styles."""
    def between(markup):
        return "" if (markup["tag"] or "").lower() in INLINE else "\n"
    lines = html.unescape(MARKUP.sub(between, re.sub(r"\s+", " ", page))).split("\n")
    return "\n".join(line for line in (" ".join(line.split()) for line in lines) if line)


def text_of_part(part, troubles):
    """The text of a part that has no parts; that of a multipart whose parts weren't found is what stands there."""
    kind = part.get_content_type()
    if kind not in ("text/plain", "text/html") and part.get_content_maintype() != "multipart":
        return ""
    data = part.get_payload(decode=True) or b""
    text = decoded(data, part.get_content_charset() or "", troubles, "body").replace("\r\n", "\n")
    return html_text(text) if kind == "text/html" else text


def body_of(part, troubles):
    """The texts of a mail or a part; of alternatives the first that has words."""
    if not part.is_multipart():
        return attempt(lambda: text_of_part(part, troubles), "", troubles, "body")
    texts = (text for text in (body_of(one, troubles) for one in part.get_payload()) if text.strip())
    if part.get_content_type() == "multipart/alternative":
        return next(texts, "")
    return "\n".join(texts)


def defects_of(mail):
    """What a mail breaks of its form, in the library's words."""
    defects = (defect for part in mail.walk() for defect in part.defects)
    return [f"form: {(type(defect).__doc__ or type(defect).__name__).split(chr(10))[0].strip(' .')}" for defect in defects]
