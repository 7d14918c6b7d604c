"""Reads whose functions those of a Rattle source are: tools/proved-table and tools/loose-ends import this.

An item is what begins at the start of a line and ends with a line `}`, as `rt fmt` leaves it.
"""
import re
import typing

HEAD = re.compile(r"(?:pub(?:\(\w+\))? )?(?:(trait|struct|enum) (\w+)|impl\b)")


class Item(typing.NamedTuple):
    """A trait, a type or an impl: the name of the type or trait, of the trait that is implemented, and its lines."""

    kind: str
    name: str
    trait: str
    start: int
    end: int


def without_brackets(text):
    """The text without what stands between angle brackets."""
    depth, kept = 0, []
    for char in text.replace("->", "  "):
        depth += char == "<"
        kept += char if depth == 0 else ""
        depth -= char == ">"
    return "".join(kept)


def names_of_impl(head):
    """The names of an impl's type and of its trait."""
    plain = re.sub(r"^impl\s*", "", without_brackets(head.partition(" where ")[0]))
    trait, _, name = plain.rpartition(" for ")
    return re.split(r"[ {:]", name.strip().lstrip("&"))[0], trait.strip()


def items(lines):
    """The items of a file's lines."""
    for number, line in enumerate(lines):
        head = HEAD.match(line)
        if head:
            end = next((at for at in range(number, len(lines)) if lines[at] == "}" or lines[at].endswith(";")
                        and not lines[at].startswith(" ")), number)
            end = number if line.endswith(("{}", "}")) else end
            whole = " ".join(lines[number: end + 1]).partition("{")[0]
            name, trait = (head[2], "") if head[2] else names_of_impl(whole)
            yield Item(head[1] or "impl", name, trait, number, end)
