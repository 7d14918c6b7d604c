"""What an import writes: requests for `index`, documents for `lafkundi add`, or an index; and what is told of it.

tools/from-mbox and tools/from-text are made of it. With --open each document takes the place of those that an earlier
import added with its identifier: before the first one of an identifier stands a line that deletes them. What --into
does is in index_updates.
"""
import argparse
import collections
import copy
import json
import re
import signal
import sys
import typing

LONGEST_LINE = 16777216
LONE_SURROGATE = re.compile("[\ud800-\udfff]")
ANALYZERS = ("plain18", "words18", "english18", "default")
ADVISED = "plain18"


def line_of(request):
    """A request as bytes; half a character that UTF-8 has no bytes for becomes U+FFFD."""
    return LONE_SURROGATE.sub("\ufffd", json.dumps(request, ensure_ascii=False)).encode() + b"\n"


class Kind(typing.NamedTuple):
    """What a tool imports.

    The fields are those of a document; of them `key` has its identifier. By `marks`, further fields that --schema has,
    it is seen whether a document has changed; where there are none, by all its fields.
    """

    tool: str
    page: str
    fields: list
    marks: list
    key: str
    source: str

    def schema(self, analyzer, marks):
        """The fields as a `create` has them, whose words are cut by an analyzer, with the marks or without them."""
        fields = copy.deepcopy(self.fields + (self.marks if marks else []))
        for field in fields if analyzer not in (None, "default") else ():
            if field["name"] in self.word_fields():
                field["options"]["indexing"]["tokenizer"] = analyzer
        return fields

    def word_fields(self):
        """The names of the fields that are cut into words."""
        return [field["name"] for field in self.fields if "record" in field["options"].get("indexing", {})]


class Import:
    """An import that is being written, and what is told of it at its end."""

    def __init__(self, kind):
        self.kind = kind
        self.added = self.in_part = 0
        self.left_out = collections.Counter()
        self.status = 0

    def tell(self, what):
        """Writes a line on standard error, where that is open, without what could move its cursor."""
        if sys.stderr:
            print(f"{self.kind.tool}: {''.join(c if c.isprintable() else '?' for c in what)}", file=sys.stderr)

    def fail(self, what):
        self.tell(what)
        sys.exit(1)

    def begin(self):
        """Writes what stands before the documents."""

    def stands(self, _identifier, _marks):
        """Whether a document with these marks is known to stand, so that it isn't added."""
        return False

    def keep(self, _identifier):
        """What stands with an identifier stays, though no document of it comes."""

    def take_away(self, _is_gone):
        """Takes away what stands with an identifier that is gone."""

    def leave_out(self, why):
        self.left_out[why] += 1

    def count(self, what):
        """How many documents that is, how many of them in part, and how many were left out."""
        in_part = f", {self.in_part} of them in part" if self.in_part else ""
        reasons = ", ".join(f"{count} {why}" for why, count in sorted(self.left_out.items()))
        return f"{what[0]}{in_part}{what[1]}, {self.left_out.total()} left out{f' ({reasons})' if reasons else ''}"


class Printed(Import):
    """An import of which each document is printed as a line."""

    def line(self, doc):
        return line_of(doc)

    def write(self, line):
        sys.stdout.buffer.write(line)

    def add(self, doc):
        """Prints a document, unless it is too long for a line; whether it isn't."""
        line = self.line(doc)
        if len(line) - 1 > LONGEST_LINE:
            return False
        self.write_document(doc[self.kind.key], line)
        self.added += 1
        return True

    def write_document(self, _identifier, line):
        self.write(line)

    def end(self):
        """Tells how much came of the import; the exit status."""
        sys.stdout.buffer.flush()
        self.tell(self.count((f"{self.added} printed", "")))
        return self.status


class Requests(Printed):
    """An import as lines of requests: a create or an open, as asked, the adds, and a commit."""

    def __init__(self, kind, first, schema):
        super().__init__(kind)
        self.first, self.schema, self.replaces = first, schema, first == "open"
        self.identifiers = set()

    def begin(self):
        if self.first:
            self.write(line_of({"op": self.first, **({"schema": self.schema} if self.first == "create" else {})}))

    def line(self, doc):
        marks = {field["name"] for field in self.kind.marks}
        return line_of({"op": "add", "doc": {name: value for name, value in doc.items() if name not in marks}})

    def write_document(self, identifier, line):
        if self.replaces and identifier not in self.identifiers:
            self.identifiers.add(identifier)
            self.write(line_of({"op": "delete", "term": {"field": self.kind.key, "value": identifier}}))
        self.write(line)

    def end(self):
        self.write(line_of({"op": "commit"}))
        sys.stdout.buffer.flush()
        self.tell(self.count((f"{self.added} added", f", {len(self.identifiers)} replaced at most")))
        return self.status


class Words(argparse.ArgumentParser):
    """A reader of the words of a call that tells in one line what is wrong."""

    def error(self, message):
        self.exit(2, f"{self.prog}: {message}; --help has the calls\n")


def words_of(kind):
    """The words of a call, by a tool's own page."""
    usage, description = kind.page.split("usage: ")[1].split("\n\n", 1)
    parser = Words(kind.tool, usage, description, formatter_class=argparse.RawDescriptionHelpFormatter)
    does = parser.add_mutually_exclusive_group()
    does.add_argument("--into", metavar="FILE", help="bring the index of FILE up to date, or make it")
    does.add_argument("--schema", action="store_true", help="print the fields, for `lafkundi create --schema`")
    does.add_argument("--documents", action="store_true", help="print documents, for `lafkundi add`")
    does.add_argument("--create", action="store_true", help="begin with the line that makes an index")
    does.add_argument("--open", action="store_true", help="begin with one that opens it, and replace what is there")
    parser.add_argument("--analyzer", metavar="NAME", choices=ANALYZERS,
                        help=f"how texts are cut into words: {', '.join(ANALYZERS)}")
    parser.add_argument(kind.source, nargs="?")
    args = parser.parse_args()
    if args.analyzer and not (args.create or args.schema or args.into):
        parser.error("--analyzer goes with --into, --schema or --create, which say what an index is made of")
    if (getattr(args, kind.source) is None) != args.schema:
        parser.error(f"--schema takes no {kind.source}" if args.schema else f"the {kind.source} isn't named")
    return args


def import_as_asked(kind):
    """Reads the words of a call; an import that hasn't begun, and the source."""
    args = words_of(kind)
    source = getattr(args, kind.source)
    signal.signal(signal.SIGINT, signal.SIG_DFL)
    if args.into:
        import index_updates  # (which is made of this module)
        return index_updates.IndexUpdate(kind, args.into, args.analyzer), source
    signal.signal(signal.SIGPIPE, signal.SIG_DFL)
    if args.schema:
        fields = kind.schema(args.analyzer or ADVISED, True)
        print("[" + ",\n ".join(json.dumps(field) for field in fields) + "]", flush=True)
        sys.exit(0)
    if args.documents:
        return Printed(kind), source
    first = "create" if args.create else "open" if args.open else None
    return Requests(kind, first, kind.schema(args.analyzer, False)), source
