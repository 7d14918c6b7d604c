"""Tests of what `lafkundi` makes of imports: documents that it adds, and indexes that are brought up to date."""
import json
import os
import shutil

from import_cases import ANN, MAILS, TOOLS, call, docs, mbox, side_by_side, tool, write


def found(lafkundi, path, text):
    """How many documents a text finds."""
    return int(call(lafkundi, "ask", path, text, "--count")[1] or 0)


def counts(added, replaced, taken_away, unchanged, in_part=0, left_out="0 left out"):
    """How much is told to have come of an update."""
    part = f", {in_part} of them in part" if in_part else ""
    return f"{added} added{part}, {replaced} replaced, {taken_away} taken away, {unchanged} unchanged, {left_out}"


def into(test, what, path, told, *words):
    """Brings an index up to date, and compares how much came of it; whether the file has changed."""
    before = bytes_of(path)
    status, printed, said = tool(words[0], "--into", path, *words[1:])
    wanted = (0, b"", [f"tools/{words[0]}: {path}: {told}"])
    test.same(f"{what}, into", (status, printed, said.splitlines()[-1:]), wanted)
    return before != bytes_of(path)


def bytes_of(path):
    if not os.path.exists(path):
        return None
    with open(path, "rb") as file:
        return file.read()


def test_documents(test, room, lafkundi):
    """Documents are added to an index of the schema."""
    for name, source, key in (("from-mbox", f"{room}/all.mbox", "id"), ("from-text", f"{room}/files", "path")):
        index = f"{room}/{name}.idx"
        schema = json.loads(tool(name, "--schema")[1])
        cut_by = {field["options"]["indexing"].get("tokenizer") for field in schema if "indexing" in field["options"]}
        test.same(f"{name}, analyzers", cut_by, {"raw", "plain18"})
        line = f"set -o pipefail; {TOOLS}/{name} --schema --analyzer english18 > {room}/schema" \
            f" && {lafkundi} create {index} --schema {room}/schema" \
            f" && {TOOLS}/{name} --documents {source} 2>&- | {lafkundi} add {index} --id {key}"
        added = len(docs(tool(name, "--create", source)[1]))
        told = f"{index}: an index, fields: {len(schema)}\n{index}: {added} added, 0 deletions, 0 refused\n"
        test.same(f"{name}, added", call("bash", "-c", line)[:2], (0, told.encode()))
    for path, text, wanted in (
            ("from-mbox", "people:jurgen", 2), ("from-mbox", "mooring", 1), ("from-mbox", "CAFÉ", 1),
            ("from-text", "SEAE", 1), ("from-text", "size:12", 1), ("from-text", "changed:2025-10-07T18:00:00Z", 4)):
        test.same(f"{path}, {text}", found(lafkundi, f"{room}/{path}.idx", text), wanted)


def test_mails_into(test, room, lafkundi):
    index, path = f"{room}/into.idx", f"{room}/into.mbox"
    all_mails = [mail for mail, _, _ in MAILS.values()]
    in_part = sum(trouble is not None for _, _, trouble in MAILS.values())

    def run(what, mails, told, changes):
        with open(path, "wb") as file:
            file.write(mbox(mails))
        test.same(f"{what}, changes", into(test, what, index, told, "from-mbox", path), changes)

    run("all mails", all_mails, counts(len(MAILS), 0, 0, 0, in_part), True)
    run("again", all_mails, counts(0, 0, 0, len(MAILS), in_part), False)
    changed = all_mails[0].replace(b"The old sea.", b"The new sea.")
    long = ANN + b"Message-ID: <new>\n\n" + b"keel " * 200000
    run("one changed, one new", [changed, long],
        counts(1, 1, 0, 0), True)
    run("again, a long one", [changed, long],
        counts(0, 0, 0, 2), False)
    for text, wanted in (('"new sea"', 1), ('"old sea"', 1), ('id:"<1@quay>"', 1), ("people:jurgen", 2), ("CAFÉ", 1)):
        test.same(f"mails after it, {text}", found(lafkundi, index, text), wanted)
    two = [ANN + b"Message-ID: <two>\n\n" + word for word in (b"keel\n", b"helm\n", b"keel\n")]
    run("three of one Message-ID", two, counts(3, 0, 0, 0), True)
    run("in another order, but for one", two[1:], counts(0, 0, 0, 2), False)
    run("one of them changed", two[:1] + [two[1].replace(b"helm", b"mast")],
        counts(0, 1, 0, 1), True)
    run("one more of them", two[:1] + [two[1].replace(b"helm", b"mast")] + two[1:2],
        counts(1, 0, 0, 2), True)
    for text, wanted in (("keel", 3), ("helm", 1), ("mast", 1), ('id:"<two>"', 3)):
        test.same(f"mails of one Message-ID, {text}", found(lafkundi, index, text), wanted)


def test_files_into(test, room, lafkundi):
    top, index = f"{room}/notes", f"{room}/notes.idx"
    for name in (b"a", b"b/c", b"b/d\xff", b"late"):
        write(top, name, b"the old sea\n")
    into(test, "files", index, counts(4, 0, 0, 0), "from-text", top)
    again = counts(0, 0, 0, 4)
    test.same("files again, changes", into(test, "files again", index, again, "from-text", f"{top}/"), False)
    write(top, b"b/c", b"wind of the sea\n")
    os.utime(f"{top}/a", (1759860000, 1759860001))
    os.remove(os.path.join(os.fsencode(top), b"b/d\xff"))
    write(top, b"late", b"\0")
    write(top, b"new", b"sea\n")
    into(test, "changed files", index, counts(1, 2, 2, 0, left_out="1 left out (1 with NUL bytes)"), "from-text", top)
    test.same("changed files are found", [found(lafkundi, index, text) for text in ("sea", "wind", "old")], [3, 1, 1])
    write(f"{room}/notes2", b"a", b"sea\n")
    into(test, "another folder", index, counts(1, 0, 0, 0), "from-text", f"{room}/notes2")
    test.same("files of two folders", found(lafkundi, index, "sea"), 4)
    shutil.rmtree(top)
    os.mkdir(top)
    into(test, "a folder that is empty", index, counts(0, 0, 3, 0), "from-text", top)
    test.same("files of one folder", found(lafkundi, index, "sea"), 1)


def test_no_index(test, room):
    """What is wrong makes no index, and leaves one that stands as it is."""
    index = f"{room}/mail.idx"
    before = bytes_of(index)
    for words, path, part in (
            (("from-mbox", f"{room}/missing"), "no.idx", "missing: "),
            (("from-mbox", f"{room}/text"), "no.idx", "is no mbox"),
            (("from-text", f"{room}/missing"), "no.idx", "is no folder"),
            (("from-mbox", f"{room}/all.mbox"), "text", "no index"),
            (("from-text", f"{room}/notes"), "mail.idx", "has no field `path`"),
            (("from-mbox", "--analyzer", "english18", f"{room}/all.mbox"), "mail.idx", "cuts `people` by default"),
            (("from-text", f"{room}/notes"), "absent/no.idx", "can't be opened")):
        status, printed, said = tool(words[0], "--into", f"{room}/{path}", *words[1:])
        test.same(f"{' '.join(words)}, status and lines", (status, printed, len(said.splitlines())), (1, b"", 1))
        test.has(f"{' '.join(words)}, told", said, part)
    test.same("no index was made", os.path.exists(f"{room}/no.idx"), False)
    test.same("an index is left as it is", bytes_of(index), before)
    status, _, said = tool("from-mbox", "--schema", f"{room}/all.mbox")
    test.same("wrong words", (status, said), (2, "tools/from-mbox: --schema takes no mbox; --help has the calls\n"))


def test_old_indexes(test, room):
    """Indexes that `index` made of the lines of requests are brought up to date."""
    in_part = sum(trouble is not None for _, _, trouble in MAILS.values())
    told = counts(0, 0, 0, len(MAILS), in_part)
    changes = into(test, "mails of an old index", f"{room}/mail.idx", told, "from-mbox", f"{room}/all.mbox")
    test.same("mails of an old index, changes", changes, False)
    index = f"{room}/files.idx"
    status, _, said = tool("from-text", "--into", index, f"{room}/files")
    test.same("files of an old index", (status, [line.partition(", 11 left")[0] for line in said.splitlines()]), (0, [
        f"tools/from-text: {index} doesn't store `size` and `changed`: all is added anew;"
        " an index that --into makes does",
        f"tools/from-text: {index}: 0 added, 4 replaced, 0 taken away, 0 unchanged"]))


def test_updates(test, room, lafkundi):
    """Tests it in a folder with the mails and files of the other tests."""
    os.environ["LAFKUNDI"] = lafkundi
    side_by_side(*((part, test, room, lafkundi) for part in (test_documents, test_mails_into, test_files_into)))
