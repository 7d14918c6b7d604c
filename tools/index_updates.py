"""An index of a file that is brought up to date by an import, asked through `lafkundi serve`."""
import collections
import hashlib
import json
import os
import shutil
import subprocess
import sys

import import_lines

# After how many documents and deletions they are committed.
COMMIT_EVERY = 100000
# The longest text that a field which takes it whole has, in bytes.
LONGEST_WHOLE = 65530
# As many as there may be.
ALL = 2**63 - 1
# Why a document is refused, after which the next one is taken.
REFUSALS = {"NotAnObject", "TypeError", "OverflowError", "ParseError", "InvalidBase64", "FloatValue", "NotIndexable"}


class Ended(Exception):
    """The program has ended."""


def program():
    """The program `lafkundi` that the environment names, the one at the top of the repository, or one in the path."""
    tools = os.path.dirname(os.path.realpath(__file__))
    top = os.path.join(os.path.dirname(tools), "lafkundi")
    return os.environ.get("LAFKUNDI") or (top if os.access(top, os.X_OK) else shutil.which("lafkundi"))


class Served:
    """The index of a file, which another program answers line by line."""

    def __init__(self, name, path):
        self.process = subprocess.Popen([name, "serve", "--", path], stdin=subprocess.PIPE, stdout=subprocess.PIPE)

    def ask(self, line):
        """The reply to a line, which is asked alone: the program reads it to its end and replies before it reads on, so
        that neither of the two pipes is full while the other one waits."""
        try:
            self.process.stdin.write(line)
            self.process.stdin.flush()
        except BrokenPipeError as why:
            raise Ended from why
        reply = self.process.stdout.readline()
        if not reply.endswith(b"\n"):
            raise Ended
        return json.loads(reply)

    def end(self):
        """Lets the program end, by which what waits is lost; its status."""
        try:
            self.process.stdin.close()
        except BrokenPipeError:
            pass
        self.process.stdout.close()
        return self.process.wait()


def digest_of(doc):
    """A digest of values, whose names may come in any order."""
    return hashlib.sha256(json.dumps(doc, sort_keys=True).encode()).digest()


class IndexUpdate(import_lines.Import):
    """An import into the index of a file: what is new is added, what has changed takes the place of what stands."""

    def __init__(self, kind, path, analyzer):
        super().__init__(kind)
        self.path, self.analyzer = path, analyzer
        self.served = None
        self.made = False
        self.stored = set()
        # The identifiers of which all that stands has come, or was written anew. Where several documents stand with
        # one, the digests of those that haven't come yet, and the lines of those that have.
        self.settled, self.others, self.came = set(), {}, collections.defaultdict(list)
        self.replaced = self.taken_away = self.unchanged = self.waiting = self.done = 0

    def fail(self, what):
        if self.served:
            self.served.end()
        super().fail(what)

    # ---- the index

    def begin(self):
        """Opens the index, or makes it where the file is absent or empty."""
        self.made = not os.path.exists(self.path) or os.path.isfile(self.path) and os.path.getsize(self.path) == 0
        name = program() or self.fail("there is no program lafkundi: name it in the environment as LAFKUNDI")
        fields = self.kind.schema(self.analyzer or import_lines.ADVISED, True)
        try:
            fields = fields if self.made else self.fields_that_stand(name)
            self.served = Served(name, self.path)
        except OSError as why:
            self.fail(f"{name}: {why.strerror}: LAFKUNDI in the environment names the program lafkundi")
        self.stored = {field["name"] for field in fields if field["options"].get("stored")}
        self.ask({"op": "create", "schema": fields} if self.made else {"op": "open"})
        if not self.has_marks() and self.kind.marks:
            names = " and ".join(f"`{field['name']}`" for field in self.kind.marks)
            self.tell(f"{self.path} doesn't store {names}: all is added anew; an index that --into makes does")

    def fields_that_stand(self, name):
        """The fields of the index that stands, which must have the identifiers and the analyzer that is asked for."""
        told = subprocess.run([name, "inspect", "--", self.path], stdout=subprocess.PIPE, check=False).stdout
        first = told.partition(b"\n")[0]
        if not first.startswith(b'{"op":"create"'):
            sys.exit(1)  # (and the program has told why)
        fields = json.loads(first)["schema"]
        options = {field["name"]: field["options"] for field in fields}
        cut_by = {name: (options[name].get("indexing") or {}).get("tokenizer") for name in options}
        key = self.kind.key
        if cut_by.get(key) != "raw" or not options[key]["stored"]:
            self.fail(f"{self.path} has no field `{key}` that is stored and whole: name a file that isn't there yet")
        for word in self.kind.word_fields() if self.analyzer else ():
            if cut_by.get(word) not in (None, self.analyzer):
                self.fail(f"{self.path} cuts `{word}` by {cut_by[word]}: leave --analyzer out, or name another file")
        return fields

    def ask(self, request):
        return self.reply(import_lines.line_of(request))

    def reply(self, line):
        """The reply to a line; a refusal ends the import, but for one of a document."""
        try:
            reply = self.served.ask(line)
        except Ended:
            status = self.served.end()
            if status == 2 and not self.done:
                sys.exit(1)  # (and the program has told why)
            super().fail(f"{self.path}: lafkundi ended with status {status}; what was committed before stands")
        if "error" in reply and reply["error"] not in REFUSALS:
            self.fail(f"{self.path}: {reply['error']}; what was committed before stands")
        self.done += 1
        return reply

    def write(self, line):
        """Writes an add or a deletion; the reply."""
        self.waiting += 1
        return self.reply(line)

    def commit_if_due(self):
        """Commits where as many wait as are committed at a time; never between a deletion and the add in its place."""
        if self.waiting >= COMMIT_EVERY:
            self.commit()
            self.tell(f"{self.path}: {self.added + self.replaced} written so far")

    def commit(self):
        if self.waiting:
            self.ask({"op": "commit"})
        self.waiting = 0

    def delete(self, identifier):
        self.write(import_lines.line_of({"op": "delete", "term": {"field": self.kind.key, "value": identifier}}))

    # ---- what stands

    def standing(self, identifier):
        """The documents that stand with an identifier, where nothing of it was written yet."""
        if self.made or identifier in self.settled:
            return []
        query = {"q": "term", "field": self.kind.key, "value": identifier}
        return [hit["doc"] for hit in self.ask({"op": "search", "query": query, "k": ALL})["hits"]]

    def has_marks(self):
        return {field["name"] for field in self.kind.marks} <= self.stored

    def stands(self, identifier, marks):
        found = self.standing(identifier) if self.has_marks() else []
        same = len(found) == 1 and all(found[0].get(name) == [value] for name, value in marks.items())
        if same:
            self.settled.add(identifier)
            self.unchanged += 1
        return same

    def keep(self, identifier):
        self.settled.add(identifier)

    # ---- what comes

    def digest(self, line):
        """The digest of the document of a line, as it would stand."""
        doc = json.loads(line)["doc"]
        lists = {name: value if isinstance(value, list) else [value] for name, value in doc.items()}
        return digest_of({name: values for name, values in lists.items() if values and name in self.stored})

    def add(self, doc):
        """Adds a document where it doesn't stand, unless it is too long for a line; whether it isn't."""
        identifier = import_lines.LONE_SURROGATE.sub("\ufffd", doc[self.kind.key])
        line = import_lines.line_of({"op": "add", "doc": doc})
        if len(line) - 1 > import_lines.LONGEST_LINE:
            return False
        if len(identifier.encode()) > LONGEST_WHOLE:
            self.leave_out(f"with an identifier over {LONGEST_WHOLE} bytes")
        else:
            self.add_line(identifier, line)
        return True

    def add_line(self, identifier, line):
        """Adds the document of a line where it doesn't stand, in the place of those that stand otherwise."""
        others = self.others.get(identifier) or [digest_of(doc) for doc in self.standing(identifier)]
        digest = None if self.kind.marks else self.digest(line)
        if digest in others:
            self.unchanged += 1
            others.remove(digest)
            if others:
                self.others[identifier] = others
                self.came[identifier].append(line)
            else:
                self.settle(identifier)
            return
        if others:
            self.delete(identifier)
            for earlier in self.came[identifier]:
                self.write(earlier)
        refusal = self.write(line).get("error")
        if refusal:
            self.leave_out(f"refused as {refusal}")
        elif others:
            self.replaced += 1
        else:
            self.added += 1
        self.settle(identifier)
        self.commit_if_due()

    def settle(self, identifier):
        """From now on a document with this identifier is one more."""
        self.settled.add(identifier)
        self.others.pop(identifier, None)
        self.came.pop(identifier, None)

    def take_away(self, is_gone):
        hits = [] if self.made else self.ask({"op": "search", "query": {"q": "all"}, "k": ALL})["hits"]
        found = {identifier for hit in hits for identifier in hit["doc"].get(self.kind.key, [])}
        for identifier in sorted(found - self.settled):
            if is_gone(identifier):
                self.delete(identifier)
                self.taken_away += 1
                self.commit_if_due()

    def end(self):
        """Commits what waits, and tells how much came of the import; the exit status."""
        self.commit()
        self.served.end()
        others = f", {self.replaced} replaced, {self.taken_away} taken away, {self.unchanged} unchanged"
        self.tell(f"{self.path}: {self.count((f'{self.added} added', others))}")
        return self.status
