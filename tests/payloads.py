"""Payloads of JSON, as `json_payloads` reads and makes them, against the `json` of Python.

The program `golden_payloads` reads a shipment of each line, a declaration or an error, and makes it
again. The lines of the table below stand with their outcomes in its crate, so that the gate runs
them too.
"""
import base64
import json
import random
import subprocess
import unittest
from datetime import datetime, timedelta
from typing import Any, Dict, Iterable, List, NamedTuple, Tuple

from .support.program import TOP

CRATE = TOP / "crates/golden_payloads"
PROGRAM = CRATE / "out/golden_payloads"
VALUES = 1000

Json = Dict[str, Any]


class Row(NamedTuple):
    """A line for the program: its name, the payload's bytes, what is wanted of them, and of which
    structure they are."""

    name: str
    payload: bytes
    outcome: str
    structure: str = "shipment"


# ---- shipments

BOUNDS = {
    "u8": (0, 2**8), "u16": (0, 2**16), "u32": (0, 2**32), "u64": (0, 2**64),
    "i8": (-2**7, 2**7), "i16": (-2**15, 2**15), "i32": (-2**31, 2**31), "i64": (-2**63, 2**63),
}
NUMBERS: Json = {name: low for name, (low, _) in BOUNDS.items()}
SHIPMENT: Json = {
    "id": "s-1", "state": "PACKED", "from": {"street": "Low Road", "house": 4},
    "to": {"street": "High Road"}, "parcels": ["a", "b"], "weights": [1, None],
    "labels": {"de": "Vorsicht", "en": "mind"}, "rings": 1, "fragile": True, "image": "AAH/",
    "packed": -1, "payment": {"cents": 5}, "numbers": NUMBERS,
}
FEW: Json = {
    "id": "s-2", "state": "PACKED", "from": {"street": "Low Road"}, "parcels": [], "rings": 1,
    "fragile": False, "packed": 0,
}
# Structures in it, each with the members that must be there.
PARTS = [
    ("from", {"street": "Low Road", "house": 4}, ["street"]),
    ("numbers", {**NUMBERS, "double": 2.5}, list(NUMBERS)),
]
REQUIRED = ["id", "state", "from", "parcels", "fragile", "packed"]
DEFAULTS = {"rings": 3}
WRONG = {name: [] for name in SHIPMENT}
WRONG["parcels"] = {}
WRONG["weights"] = {}
DIGITS = b"9" * 16384


def printed(value: Json) -> str:
    """The text that the value is made into: compact, its members by their names."""
    return json.dumps(value, ensure_ascii=False, separators=(",", ":"), sort_keys=True)


def payload(value: Json) -> bytes:
    return json.dumps(value, ensure_ascii=False).encode()


def without(name: str) -> Json:
    return {key: value for key, value in SHIPMENT.items() if key != name}


def with_default(value: Json) -> Json:
    return {**DEFAULTS, **value}


# ---- the table

def absent_rows() -> Iterable[Row]:
    """Each member missing, and null: it is absent."""
    for name in SHIPMENT:
        outcome = "Missing" if name in REQUIRED else printed(with_default(without(name)))
        yield Row(f"{name} is missing", payload(without(name)), outcome)
        yield Row(f"{name} is null", payload({**SHIPMENT, name: None}), outcome)


def wrong_rows() -> Iterable[Row]:
    """Each member of a wrong type."""
    for name, value in WRONG.items():
        outcome = "NoCase" if name == "payment" else "WrongType"
        yield Row(f"{name} is of a wrong type", payload({**SHIPMENT, name: value}), outcome)


def doubled_rows() -> Iterable[Row]:
    """Each member twice, of which the last counts, and behind it one that is unknown."""
    text = json.dumps(SHIPMENT, ensure_ascii=False)
    for name, value in SHIPMENT.items():
        first = json.dumps({name: WRONG[name]})[1:-1]
        yield Row(f"{name} is doubled", f"{{{first},{text[1:]}".encode(), printed(SHIPMENT))
        last = json.dumps({name: value, name + "2": [{}, None]})[1:-1]
        yield Row(f"{name} is doubled and {name}2 unknown", f"{text[:-1]},{last}}}".encode(),
                  printed(SHIPMENT))


def bound_rows() -> Iterable[Row]:
    """Each type of number at its bounds, and beyond them."""
    for name, (low, high) in BOUNDS.items():
        for number in (low, high - 1):
            value = {**SHIPMENT, "numbers": {**NUMBERS, name: number}}
            yield Row(f"{name} is {number}", payload(value), printed(value))
        for number in (low - 1, high, 0.5, 1e30):
            value = {**SHIPMENT, "numbers": {**NUMBERS, name: number}}
            yield Row(f"{name} is {number}", payload(value), "OutOfRange")
        value = {**SHIPMENT, "numbers": {**NUMBERS, name: "1"}}
        yield Row(f"{name} is a text", payload(value), "WrongType")


def spelled_rows() -> Iterable[Row]:
    """Texts that must be spelled in a way, and unions."""
    for name, value in [("state", "packed"), ("state", ""), ("image", "AAH"), ("image", "AA*/"),
                        ("image", "AAH/ ")]:
        yield Row(f"{name} is {value!r}", payload({**SHIPMENT, name: value}), "Misspelled")
    for value in ({}, {"coin": 1}, {"cents": None}):
        yield Row(f"payment is {value}", payload({**SHIPMENT, "payment": value}), "NoCase")
    for value, kept in [
            ({"card": None, "cents": 5}, {"cents": 5}),
            ({"coin": 1, "card": "c"}, {"card": "c"}),
            ({"cents": 5, "card": "c"}, {"card": "c"})]:
        yield Row(f"payment is {value}", payload({**SHIPMENT, "payment": value}),
                  printed({**SHIPMENT, "payment": kept}))
    wrong = {**SHIPMENT, "payment": {"cents": -1}}
    yield Row("payment is of a wrong number", payload(wrong), "OutOfRange")


def inner_rows() -> Iterable[Row]:
    """Faults in what stands in a member."""
    for name, value, outcome in [
            ("from", {"house": 4}, "Missing"),
            ("from", {"street": "", "house": 2**32}, "OutOfRange"),
            ("parcels", ["a", None], "WrongType"), ("parcels", ["a", 1], "WrongType"),
            ("weights", [None, -1], "OutOfRange"), ("weights", ["1"], "WrongType"),
            ("labels", {"de": None}, "WrongType"), ("packed", 1.5, "OutOfRange"),
            ("numbers", {"u8": 1}, "Missing"), ("rings", 256, "OutOfRange")]:
        yield Row(f"{name} is {json.dumps(value)}", payload({**SHIPMENT, name: value}), outcome)
    for value, kept in [("5", "5.0"), ("-0.0", "-0.0"), ("1e-7", "1e-7"), ("2.50", "2.5")]:
        text = printed(SHIPMENT).replace('"numbers":{', f'"numbers":{{"double":{value},')
        outcome = text.replace(f'"double":{value}', f'"double":{kept}')
        yield Row(f"double is {value}", text.encode(), outcome)
    for value in ("1", "NaN"):
        numbers = {**NUMBERS, "double": value}
        wrong = {**SHIPMENT, "numbers": numbers}
        yield Row(f"double is the text {value}", payload(wrong), "WrongType")


def with_part(name: str, text: str) -> bytes:
    """A shipment with few members, of which the one of this name is this text."""
    others = {key: value for key, value in FEW.items() if key != name}
    return f"{json.dumps(others)[:-1]}, \"{name}\": {text}}}".encode()


def part_rows() -> Iterable[Row]:
    """Each member of a structure in a structure missing, null, of a wrong type and doubled."""
    for part, structure, required in PARTS:
        for name in structure:
            fewer = {key: value for key, value in structure.items() if key != name}
            absent = "Missing" if name in required else printed({**FEW, part: fewer})
            first = f"{{\"{name}\": [], {json.dumps(structure)[1:]}"
            for fault, text, outcome in [
                    ("missing", json.dumps(fewer), absent),
                    ("null", json.dumps({**structure, name: None}), absent),
                    ("of a wrong type", json.dumps({**structure, name: []}), "WrongType"),
                    ("doubled", first, printed({**FEW, part: structure}))]:
                yield Row(f"{name} of {part} is {fault}", with_part(part, text), outcome)


def nested(value: Json, levels: int) -> bytes:
    """The value with an unknown member, by which it nests so many levels."""
    inner = "[" * (levels - 1) + "]" * (levels - 1)
    return f"{printed(value)[:-1]},\"unknown\":{inner}}}".encode()


def text_rows() -> Iterable[Row]:
    """Bytes that are no JSON, or not that of an object."""
    yield Row("no bytes", b"", "NotJson")
    yield Row("HTML of a gateway", b"<html><body>502 Bad Gateway</body></html>", "NotJson")
    yield Row("cut off", payload(SHIPMENT)[:-1], "NotJson")
    yield Row("something behind", payload(SHIPMENT) + b" {}", "NotJson")
    yield Row("blanks around", b"  " + payload(SHIPMENT) + b" \r", printed(SHIPMENT))
    yield Row("no UTF-8", payload(SHIPMENT).replace(b"s-1", b"s-\xff"), "NotText")
    yield Row("an array", b"[]", "WrongType")
    yield Row("null", b"null", "WrongType")
    yield Row("a text", b'"s-1"', "WrongType")
    yield Row("nested 127 levels", nested(SHIPMENT, 127), printed(SHIPMENT))
    yield Row("nested 128 levels", nested(SHIPMENT, 128), "NotJson")
    digits = payload(SHIPMENT).replace(b'"packed": -1', b'"packed": ' + DIGITS)
    yield Row("16 KiB of digits", digits, "NotJson")
    yield Row("300 digits", payload({**SHIPMENT, "packed": 10**299}), "OutOfRange")
    huge = payload(SHIPMENT).replace(b'"packed": -1', b'"packed": 1e400')
    yield Row("a number beyond floats", huge, "NotJson")


# ---- declarations, of thirty members

ADDRESS: Json = {"street": "Low Road", "house": 4}
DECLARATION: Json = {
    "number": "d-1", "exporter": "Ada", "exporterAddress": ADDRESS, "importer": "Bo",
    "importerAddress": {"street": "High Road"}, "contents": ["a book", "a pen"],
    "weightGrams": 500, "lengthMillimeters": 300, "widthMillimeters": 200,
    "heightMillimeters": 50, "valueCents": 2500, "currency": "EUR", "origin": "NL",
    "destination": "NO", "transit": ["DE", "DK"], "tariff": "4901", "dutyCents": 0,
    "taxCents": 625, "insuredCents": 2**64 - 1, "commercial": False, "returned": False,
    "dangerous": False, "perishable": True, "invoice": "i-1", "invoiceImage": "AAH/",
    "license": "l-1", "certificate": "", "signedBy": "Ada",
    "signed": "2026-12-01T05:30:00.5Z", "remarks": [],
}
OPTIONAL = [
    "exporterAddress", "importerAddress", "tariff", "dutyCents", "taxCents", "insuredCents",
    "invoice", "invoiceImage", "license", "certificate", "remarks",
]
MOMENTS = [
    "1970-01-01T00:00:00Z", "0001-01-01T00:00:00Z", "9999-12-30T22:00:00Z",
    "2024-02-29T23:59:59.999999999Z", "2026-12-01T05:30:00+05:30",
]
NO_MOMENTS = [
    "", "yesterday", "2026-12-01", "2026-12-01T05:30:00", "2026-13-01T00:00:00Z",
    "2026-02-29T00:00:00Z", "2026-12-01T24:00:00Z", "2026-12-01T05:30:00Z ", "1764567000",
]


def declaration_row(name: str, value: Json, outcome: str) -> Row:
    return Row(name, payload(value), outcome, "declaration")


def declaration_rows() -> Iterable[Row]:
    """A declaration, and it without each of its members."""
    yield declaration_row("a declaration", DECLARATION, printed(DECLARATION))
    backwards = dict(reversed(list(DECLARATION.items())))
    yield declaration_row("a declaration from behind", backwards, printed(DECLARATION))
    for name in DECLARATION:
        fewer = {key: value for key, value in DECLARATION.items() if key != name}
        outcome = printed(fewer) if name in OPTIONAL else "Missing"
        yield declaration_row(f"a declaration without {name}", fewer, outcome)


def moment_rows() -> Iterable[Row]:
    """Texts that spell a moment, and others."""
    for text in MOMENTS:
        value = {**DECLARATION, "signed": text}
        yield declaration_row(f"signed {text!r}", value, printed(value))
    for text in NO_MOMENTS:
        yield declaration_row(f"signed {text!r}", {**DECLARATION, "signed": text}, "Misspelled")
    yield declaration_row("signed 0", {**DECLARATION, "signed": 0}, "WrongType")
    yield declaration_row("signed null", {**DECLARATION, "signed": None}, "Missing")
    doubled = b'{"signed":0,' + payload(DECLARATION)[1:]
    yield Row("signed is doubled", doubled, printed(DECLARATION), "declaration")


# ---- errors, told by their status whatever the body is

def error_rows() -> Iterable[Row]:
    """An error's message, and bodies without one."""
    message = {"message": "at most 2 kg"}
    for name, body, outcome in [
            ("an error", payload(message), printed(message)),
            ("an error with another member", payload({**message, "code": 7}), printed(message)),
            ("an error whose message is null", payload({"message": None}), "{}"),
            ("an error whose message is a number", payload({"message": 2}), "{}"),
            ("an error whose message is doubled", b'{"message":2,' + payload(message)[1:],
             printed(message)),
            ("an error of an array", b"[]", "{}"),
            ("an error nested 127 levels", nested(message, 127), printed(message)),
            ("an error nested 128 levels", nested(message, 128), "{}"),
            ("an error of 16 KiB of digits", b'{"message":' + DIGITS + b"}", "{}"),
            ("an error without a body", b"", "{}"),
            ("an error as HTML", b"<html><body>413</body></html>", "{}"),
            ("an error that is no UTF-8", b"\xff", "{}")]:
        yield Row(name, body, outcome, "error")


# ---- errors with members of their own

def refusal_rows() -> Iterable[Row]:
    """An error's details, and bodies that are none: the error is told all the same, without them."""
    limit = {"grams": 2000, "wait": 60}
    for name, body, outcome in [
            ("a refusal", payload(limit), printed(limit)),
            ("a refusal without wait", payload({"grams": 2000}), printed({"grams": 2000})),
            ("a refusal without grams", payload({"wait": 60}), "null"),
            ("a refusal whose wait is null", payload({**limit, "wait": None}),
             printed({"grams": 2000})),
            ("a refusal whose wait is a text", payload({**limit, "wait": "60"}), "null"),
            ("a refusal whose grams are null", payload({**limit, "grams": None}), "null"),
            ("a refusal whose grams are a text", payload({**limit, "grams": "2000"}), "null"),
            ("a refusal whose grams are out of range", payload({"grams": 2**32}), "null"),
            ("a refusal whose grams are doubled", b'{"grams":"",' + payload(limit)[1:],
             printed(limit)),
            ("a refusal with another member", payload({**limit, "code": 7}), printed(limit)),
            ("a refusal nested 127 levels", nested(limit, 127), printed(limit)),
            ("a refusal nested 128 levels", nested(limit, 128), "null"),
            ("a refusal of 16 KiB of digits", b'{"grams":' + DIGITS + b"}", "null"),
            ("a refusal that is null", b"null", "null"),
            ("a refusal without a body", b"", "null"),
            ("a refusal as HTML", b"<html><body>413</body></html>", "null"),
            ("a refusal that is no UTF-8", b"\xff", "null")]:
        yield Row(name, body, outcome, "refusal")


def table() -> List[Row]:
    makers = (
        absent_rows, wrong_rows, doubled_rows, bound_rows, spelled_rows, inner_rows, part_rows,
        text_rows, declaration_rows, moment_rows, refusal_rows, error_rows,
    )
    return [row for make in makers for row in make()]


# ---- values at random

TEXTS = [
    "", "a", "\u00fc", "\u20ac \"x\"", "\\", "\n\t\r\b\f", "\x00\x1f\x7f", "\U0001f600", "/",
    "\u2028",
]


def random_text(draw: random.Random) -> str:
    return "".join(draw.choice(TEXTS) for _ in range(draw.randrange(4)))


def random_number(draw: random.Random, bounds: Tuple[int, int]) -> int:
    low, high = bounds
    near_zero = max(low, min(high - 1, draw.randrange(-9, 99)))
    return draw.choice([low, high - 1, draw.randrange(low, high), near_zero])


def random_address(draw: random.Random) -> Json:
    address: Json = {"street": random_text(draw)}
    if draw.random() < 0.5:
        address["house"] = random_number(draw, BOUNDS["u32"])
    return address


def random_payment(draw: random.Random) -> Json:
    return draw.choice([
        {"card": random_text(draw)},
        {"cents": random_number(draw, BOUNDS["u64"])},
        {"voucher": random_address(draw)},
    ])


def random_numbers(draw: random.Random) -> Json:
    numbers: Json = {name: random_number(draw, bounds) for name, bounds in BOUNDS.items()}
    if draw.random() < 0.7:
        # Both programs write such floats without an exponent.
        numbers["double"] = draw.choice([-1, 1]) * draw.uniform(0.001, 10.0 ** draw.randrange(15))
    return numbers


def random_shipment(draw: random.Random) -> Json:
    weights = [draw.choice([None, random_number(draw, BOUNDS["u32"])]) for _ in range(3)]
    shipment: Json = {
        "id": random_text(draw),
        "state": draw.choice(["PACKED", "ON_THE_WAY", "DELIVERED"]),
        "from": random_address(draw),
        "to": random_address(draw),
        "parcels": [random_text(draw) for _ in range(draw.randrange(5))],
        "weights": weights[draw.randrange(4):],
        "labels": {random_text(draw): random_text(draw) for _ in range(draw.randrange(5))},
        "rings": random_number(draw, BOUNDS["u8"]),
        "fragile": draw.random() < 0.5,
        "image": base64.b64encode(draw.randbytes(draw.randrange(40))).decode(),
        "packed": random_number(draw, BOUNDS["i64"]),
        "payment": random_payment(draw),
        "numbers": random_numbers(draw),
    }
    return {
        name: value for name, value in shipment.items() if name in REQUIRED or draw.random() < 0.7
    }


def random_moment(draw: random.Random) -> str:
    at = datetime(1, 1, 2) + timedelta(microseconds=draw.randrange(300_000_000_000_000_000))
    offset = draw.choice(["Z", "+00:00", "-09:30", "+14:00"])
    return at.isoformat(timespec=draw.choice(["seconds", "milliseconds", "microseconds"])) + offset


def random_declaration(draw: random.Random) -> Json:
    """A declaration with other values of the same types, and some of its optional members."""
    declaration: Json = {}
    for name, value in DECLARATION.items():
        if name in OPTIONAL and draw.random() < 0.4:
            continue
        if name == "signed":
            declaration[name] = random_moment(draw)
        elif name in ("invoiceImage", "certificate"):
            declaration[name] = base64.b64encode(draw.randbytes(draw.randrange(40))).decode()
        elif isinstance(value, bool):
            declaration[name] = draw.random() < 0.5
        elif isinstance(value, int):
            declaration[name] = random_number(draw, BOUNDS["u32"])
        elif isinstance(value, list):
            declaration[name] = [random_text(draw) for _ in range(draw.randrange(4))]
        elif isinstance(value, dict):
            declaration[name] = random_address(draw)
        else:
            declaration[name] = random_text(draw)
    return declaration


def shuffled(draw: random.Random, value: Json, unknown: str) -> bytes:
    """The value's text with its members in any order, and one of a name that isn't known."""
    given = list(value.items()) + [(unknown, [{}])]
    draw.shuffle(given)
    return json.dumps(dict(given), ensure_ascii=draw.random() < 0.5).encode()


def random_rows() -> Iterable[Row]:
    draw = random.Random(56)
    for number in range(VALUES):
        shipment = random_shipment(draw)
        text = shuffled(draw, shipment, f"unknown{number}")
        yield Row(f"shipment {number}", text, printed(with_default(shipment)))
        declaration = random_declaration(draw)
        text = shuffled(draw, declaration, f"unknown{number}")
        yield Row(f"declaration {number}", text, printed(declaration), "declaration")


# ---- the checks

def lines(rows: Iterable[Row]) -> bytes:
    return b"".join(
        b"%s\t%s\t%s\n" % (row.structure.encode(), row.name.encode(), row.payload) for row in rows
    )


def wanted(rows: Iterable[Row]) -> bytes:
    return "".join(f"{row.name}\t{row.outcome}\n" for row in rows).encode()


class PayloadTest(unittest.TestCase):
    maxDiff = None

    def test_the_table_stands_in_the_crate(self):
        rows = table()
        self.assertEqual(len({row.name for row in rows}), len(rows), "two rows have one name")
        self.assertEqual((CRATE / "stdin").read_bytes(), lines(rows))
        self.assertEqual((CRATE / "stdout").read_bytes(), wanted(rows))

    def test_values_at_random_are_read_and_made_as_by_python(self):
        if not PROGRAM.exists():
            self.skipTest("golden_payloads isn't built: `rt run` in its crate, or ./test --prove")
        rows = list(random_rows())
        ran = subprocess.run([PROGRAM], input=lines(rows), stdout=subprocess.PIPE, check=True)
        for row, line in zip(rows, ran.stdout.decode().split("\n")):
            with self.subTest(row.name):
                self.assertEqual(line, f"{row.name}\t{row.outcome}")
        self.assertEqual(ran.stdout.count(b"\n"), len(rows))
