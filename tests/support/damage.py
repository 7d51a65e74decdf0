"""Scripts that are damaged at one value, with the place that is damaged.

The text of a script is read here by a small reader of its own, which keeps where each value begins
and ends, so that a damage is a change of the text and nothing else moves in front of it.
"""
import json
import re
from typing import Iterator, List, NamedTuple, Tuple

PAST_64_BITS = str(2**64)
SCANNER = json.JSONDecoder()


class Value(NamedTuple):
    """A value of a text: its path in words, where it begins and ends, and what it holds."""

    path: str
    start: int
    end: int
    value: object
    items: List["Value"]
    names: List[Tuple[str, int]]


class Damage(NamedTuple):
    """A damaged text, what was done, the places that may be told (path, line and column), and
    whether an array has an item less."""

    name: str
    text: str
    places: List[Tuple[str, int, int]]
    is_shorter: bool = False


def skip_spaces(text: str, at: int) -> int:
    return re.compile(r"[ \t\r\n]*").match(text, at).end()


def read(text: str, at: int = 0, path: str = "") -> Value:
    """The value that begins at this place."""
    at = skip_spaces(text, at)
    if text[at] in "[{":
        return read_parts(text, at, path)
    value, end = SCANNER.raw_decode(text, at)
    return Value(path, at, end, value, [], [])


def read_parts(text: str, start: int, path: str) -> Value:
    """An array or an object, with its items or members."""
    items, names, at = [], [], skip_spaces(text, start + 1)
    while text[at] not in "]}":
        part = f"{path}[{len(items)}]"
        if text[start] == "{":
            name, end = SCANNER.raw_decode(text, at)
            names.append((name, at))
            at = skip_spaces(text, end) + 1
            part = f"{path}.{name}" if path else name
        items.append(read(text, at, part))
        at = skip_spaces(text, items[-1].end)
        at = skip_spaces(text, at + 1) if text[at] == "," else at
    value = SCANNER.raw_decode(text, start)[0]
    return Value(path, start, at + 1, value, items, names)


def place(text: str, path: str, offset: int) -> Tuple[str, int, int]:
    """The path with the line and the column of an offset, each counted from 1."""
    line_start = text.rfind("\n", 0, offset) + 1
    return path or "the script", text.count("\n", 0, offset) + 1, offset - line_start + 1


def walk(value: Value) -> Iterator[Value]:
    yield value
    for item in value.items:
        yield from walk(item)


def changed(text: str, start: int, end: int, put: str) -> str:
    return text[:start] + put + text[end:]


def damages(text: str) -> Iterator[Damage]:
    """The text, damaged at each of its values in turn."""
    for value in walk(read(text)):
        yield from replaced(text, value)
        if isinstance(value.value, list):
            yield from recounted(text, value)
        if isinstance(value.value, dict):
            yield from renamed(text, value)


def replaced(text: str, value: Value) -> Iterator[Damage]:
    """Another type, and a number or a word that may not stand there."""
    other: List[str] = ['"wrong"' if isinstance(value.value, dict) else '{"wrong":0}']
    if isinstance(value.value, (int, float)) and not isinstance(value.value, bool):
        other += [PAST_64_BITS, "-1", "1.5"]
    if isinstance(value.value, str):
        other += [json.dumps(value.value + "x")]
    for put in other:
        damaged = changed(text, value.start, value.end, put)
        where = [place(damaged, value.path, value.start)]
        yield Damage(f"{value.path}: {put}", damaged, where)


def recounted(text: str, value: Value) -> Iterator[Damage]:
    """An item too many, and one too few. Of a list the further item is wrong, and not the list;
    where its items are objects, that one's member."""
    behind = value.items[-1].end if value.items else value.start + 1
    put = ',{"wrong":0}' if value.items else '{"wrong":0}'
    damaged = changed(text, behind, behind, put)
    further = f"{value.path}[{len(value.items)}]"
    where = [
        place(damaged, value.path, value.start),
        place(damaged, further, behind + len(put) - len('{"wrong":0}')),
        place(damaged, f"{further}.wrong", behind + len(put) - len('"wrong":0}')),
    ]
    yield Damage(f"{value.path}: an item more", damaged, where)
    if value.items:
        front = value.items[-2].end if len(value.items) > 1 else value.start + 1
        damaged = changed(text, front, behind, "")
        where = [place(damaged, value.path, value.start)]
        yield Damage(f"{value.path}: an item less", damaged, where, True)


def renamed(text: str, value: Value) -> Iterator[Damage]:
    """A member too many, and each member in turn too few."""
    behind = value.items[-1].end if value.items else value.start + 1
    put = ',"unknown":0' if value.items else '"unknown":0'
    damaged = changed(text, behind, behind, put)
    path = f"{value.path}.unknown" if value.path else "unknown"
    where = [
        place(damaged, path, behind + len(put) - len('"unknown":0')),
        place(damaged, value.path, value.start),
    ]
    yield Damage(f"{value.path}: a member more", damaged, where)
    for index, (name, start) in enumerate(value.names):
        end = value.items[index].end
        if index + 1 < len(value.names):
            end = value.names[index + 1][1]
        elif index:
            start = value.items[index - 1].end
        damaged = changed(text, start, end, "")
        where = [place(damaged, value.path, value.start)]
        yield Damage(f"{value.path}: without {name}", damaged, where)
