"""Files of rows that are a little wrong: mutations of a site, by a number."""

from __future__ import annotations

import copy
import json
import random
from typing import Any, Callable, Iterator

Row = dict[str, Any]
WHOLES = (
    0, 1, -1, 2, 3, 8, 9, 32, 33, 1000, 1001, -1000, -1001, 86_400, 86_401, 31_536_000, 31_536_001, 4_102_444_800, 4_102_444_801,
    4_294_967_293, 4_294_967_294, 4_294_967_295, 4_294_967_296, 2**63, 2**64 - 1, 2**64, -(2**63), -(2**63) - 1,
)  # fmt: skip
TEXTS = (
    "", "x", "A", "a b", "/", "//", "/a", "/a/", "/a//b", "a/b", "/node", "/node/1", "/user", "/usera", "/cache/x", "/config",
    "/json", "/json/node/1", "/jsonx", "/taxonomy/term/1", "/nodes", "/A", "/a.b", "/é", "<front>", "<FRONT>", "text", "menu", "listing",
    "greeting", "csrf", "clock", "header", "aside", "footer", "anonymous", "authenticated", "null", "\x00", "\x1f", "\x7f", "\t", "\n",
    "\r\n", "é", "a\u0301", "\U0001f600", "ü" * 30, "ü" * 31, "ab-c", "ab_c", "0" * 31, "0" * 32, "0" * 33, "f" * 64, "f" * 63, "g" * 64, "F" * 64, "administer nodes",
)  # fmt: skip
LENGTHS = (60, 61, 64, 65, 128, 129, 255, 256, 257, 65_536, 65_537)
CELLS = (
    "site", "seq", "head", "type:page", "type:", "type:Page", "role:anonymous", "role:x", "user:1", "user:01", "user:0", "user:4294967294",
    "user:4294967295", "user:-1", "user:+1", "term:1", "term:99", "node:1", "node:", "node:1 ", "node:a", "menu:main", "menu:m", "listing:x",
    "block:b", "block:" + "b" * 64, "block:" + "b" * 65, "session:s", "session:S", "comment:1", "talk", "Site", "site:", "", ":", "type:a:b",
)  # fmt: skip
RAW_NUMBERS = (
    "-0", "1.0", "0.5", "1e2", "1E2", "1e400", "-1e400", "01", "+1", "1.", ".5", "0x1", "NaN", "Infinity", "-Infinity", "1e-400", "9" * 19,
    "9" * 20, "9" * 21, "9" * 400, "-" + "9" * 20, "18446744073709551615", "18446744073709551616", "-9223372036854775808", "-9223372036854775809",
)  # fmt: skip
RAW_TEXTS = (
    '"\\u0000"', '"\\ud800"', '"\\ud800\\udc00"', '"\\udc00\\ud800"', '"\\ud800x"', '"\\uD83D\\uDE00"', '"\\/a"', '"\\x41"', '"\\u00e9"', '"\\u004"', '"a', "'a'",
    '"a\tb"', '"\\u0022"', "[1,]", "{,}", "[", "nul", "true false", '"\\ud800\\ud800\\udc00"',
)  # fmt: skip


def places(value: Any, place: tuple[Any, ...] = ()) -> Iterator[tuple[Any, ...]]:
    """All places inside a value, as the keys and indexes that lead there."""
    inner = value.items() if isinstance(value, dict) else enumerate(value) if isinstance(value, list) else ()
    for key, member in inner:
        yield (*place, key)
        yield from places(member, (*place, key))


def at(row: Any, place: tuple[Any, ...]) -> Any:
    """The value at a place."""
    for key in place:
        row = row[key]
    return row


class Mutator:
    """Makes files that differ from a site in one to three ways."""

    def __init__(self, rows: list[Row], seed: int) -> None:
        self.chance = random.Random(seed)
        self.rows = copy.deepcopy(rows)
        self.lines: list[bytes] = []

    def file(self) -> bytes:
        """The mutated file."""
        count = self.chance.choice((1, 1, 1, 2, 2, 3))
        for _ in range(count):
            self.chance.choice(self.OF_ROWS)(self)
        self.lines = [self._line(row) for row in self.rows]
        if self.chance.random() < 0.35:
            self.chance.choice(self.OF_LINES)(self)
        end = b"" if self.chance.random() < 0.1 else b"\n"
        return b"\n".join(self.lines) + end

    def _line(self, row: Row) -> bytes:
        """A row as a line, mostly as the program writes it."""
        is_sorted = self.chance.random() < 0.8
        compact = (",", ":") if self.chance.random() < 0.9 else (", ", ": ")
        text = json.dumps(row, ensure_ascii=self.chance.random() < 0.1, separators=compact, sort_keys=is_sorted)
        return text.encode("utf-8", "surrogatepass")

    def _some(self) -> tuple[Row, tuple[Any, ...]]:
        row = self.chance.choice(self.rows)
        return row, self.chance.choice(list(places(row)) or [("cell",)])

    def _value(self, old: Any) -> Any:
        """Another value, mostly of the same kind."""
        kind = self.chance.random()
        if kind < 0.15:
            return self.chance.choice((None, True, False, 0, 1.5, "x", [], {}, [None], [1], ["x"], {"a": 1}, [[]], [{}]))
        if isinstance(old, bool):
            return not old if kind < 0.8 else int(old)
        if isinstance(old, int):
            return self.chance.choice((*WHOLES, old + 1, old - 1, float(old)))
        if isinstance(old, str):
            long = self.chance.choice("aé\x7f0") * self.chance.choice(LENGTHS)
            path = "/" + "a" * self.chance.choice((254, 255, 256))
            return self.chance.choice((*TEXTS, *TEXTS, long, path, old + "x", old[:-1], old.upper()))
        if isinstance(old, list):
            return self._list(old)
        if old is None:
            return self.chance.choice((*WHOLES[:4], *TEXTS[:9], {}, []))
        return {**old, self.chance.choice(TEXTS): self.chance.choice(("x", 1, None, "y" * 65_537))}

    def _list(self, old: list[Any]) -> list[Any]:
        one = old[0] if old else self.chance.choice((1, "x", "page", {"gid": 0, "realm": "all"}, {"id": "a"}))
        count = self.chance.choice((0, 1, 2, 8, 9, 32, 33, 64, 65, 256, 257))
        return self.chance.choice((old + old, old[1:], old[::-1], [one] * count, [*old, one], [*old, None]))

    def change(self) -> None:
        """Another value somewhere."""
        row, place = self._some()
        at(row, place[:-1])[place[-1]] = self._value(at(row, place))

    def remove(self) -> None:
        """A key or a member less."""
        row, place = self._some()
        del at(row, place[:-1])[place[-1]]

    def add(self) -> None:
        """A key more, or two."""
        row, place = self._some()
        inner = at(row, place[:-1])
        name = self.chance.choice(("aa", "zz", "Cell", "cell ", "é", 'q"uote', "", "parent", "vid", "name", "\x01"))
        if isinstance(inner, dict):
            inner[name] = self.chance.choice((1, None, "x", []))
        else:
            row[name] = 1

    def move(self) -> None:
        """A value of one row in another."""
        row, place = self._some()
        kind = str(row.get("cell")).partition(":")[0]
        alike = [it for it in self.rows if str(it.get("cell")).partition(":")[0] == kind]
        other = self.chance.choice(alike if self.chance.random() < 0.9 else self.rows)
        other[place[0] if isinstance(place[0], str) else "x"] = copy.deepcopy(row[place[0]])

    def recell(self) -> None:
        """Another cell."""
        row = self.chance.choice(self.rows)
        others = [it["cell"] for it in self.rows if isinstance(it.get("cell"), str)]
        row["cell"] = self.chance.choice((*CELLS, *others))

    def drop(self) -> None:
        """A row less."""
        if len(self.rows) > 1:
            self.rows.remove(self.chance.choice(self.rows))

    def double(self) -> None:
        """A row twice, perhaps with another cell."""
        row = copy.deepcopy(self.chance.choice(self.rows))
        kind, colon, name = str(row.get("cell")).partition(":")
        if colon and self.chance.random() < 0.8:
            row["cell"] = f"{kind}:{int(name) + 1 if name.isdigit() else name + 'x'}"
        self.rows.insert(self.chance.randrange(len(self.rows) + 1), row)

    def shuffle(self) -> None:
        """Rows in another order."""
        self.chance.shuffle(self.rows)

    def chain(self) -> None:
        """A menu whose links stand deep, or whose parents lead round."""
        deep = self.chance.choice((1, 8, 9, 10, 11, 40))
        ids = [f"l{number}" for number in range(deep)]
        ends = (None, ids[-1], ids[0], "nobody", ids[len(ids) // 2])
        parents = [self.chance.choice(ends) if self.chance.random() < 0.5 else None, *ids[:-1]]
        links = [{"id": it, "parent": up, "path": "/a", "title": "A", "weight": 0} for it, up in zip(ids, parents)]
        if self.chance.random() < 0.2:
            links.append(dict(links[0]))
        self.chance.shuffle(links)
        self.rows.append({"cell": "menu:zz", "label": "Deep", "links": links})

    def tree(self) -> None:
        """Terms that stand deep, whose parents lead round or aren't there, or that lack the key."""
        deep = self.chance.choice((1, 8, 9, 10, 11))
        ids = [str(number) for number in range(50, 50 + deep)]
        ends = (None, int(ids[-1]), int(ids[0]), 99, 1)
        parents = [self.chance.choice(ends) if self.chance.random() < 0.5 else None, *map(int, ids[:-1])]
        rows = [
            {"cell": f"term:{it}", "description": "", "name": "T", "parent": up, "status": True, "uuid": f"deep-{it}"}
            for it, up in zip(ids, parents)
        ]
        if self.chance.random() < 0.3:
            del rows[-1]["parent"]
        self.chance.shuffle(rows)
        self.rows += rows
        for row in self.rows:
            if row.get("cell") == "seq" and isinstance(row.get("term"), int) and self.chance.random() < 0.9:
                row["term"] = 100

    def thread(self) -> None:
        """Comments that stand deep, whose parents lead round, aren't there or are on another node."""
        deep = self.chance.choice((1, 8, 9, 10, 11))
        ids = list(range(50, 50 + deep))
        self.chance.shuffle(ids)
        ends = (None, ids[-1], ids[0], 99, 1)
        parents = [self.chance.choice(ends) if self.chance.random() < 0.5 else None, *ids[:-1]]
        nodes = [self.chance.choice((2, 99)) if self.chance.random() < 0.1 else 1 for _ in ids]
        self.rows += [
            {"body": "x", "cell": f"comment:{it}", "created": 9, "node": on, "parent": up, "status": True, "uid": 0, "uuid": f"thread-{it}"}
            for it, up, on in zip(ids, parents, nodes)
        ]
        for row in self.rows:
            if row.get("cell") == "talk" and self.chance.random() < 0.9:
                row["comment"] = 100

    def crowd(self) -> None:
        """A node with about as many comments as it may have."""
        count = self.chance.choice((997, 998, 999))
        self.rows += [
            {"body": "x", "cell": f"comment:{it}", "created": 9, "node": 1, "parent": None, "status": True, "uid": 0, "uuid": f"crowd-{it}"}
            for it in range(2_000, 2_000 + count)
        ]
        for row in self.rows:
            if row.get("cell") == "talk":
                row["comment"] = 9_999

    def break_byte(self) -> None:
        """A byte less, more, or another one."""
        number = self.chance.randrange(len(self.lines))
        line = bytearray(self.lines[number])
        place = self.chance.randrange(len(line) + 1)
        how = self.chance.randrange(3)
        if how == 0 and line:
            del line[place - 1]
        elif how == 1:
            line.insert(place, self.chance.choice(b'",:{}[]\\ \t\r0-ae\x00\x7f\x80\xc3\xff'))
        elif line:
            line[place - 1] = self.chance.randrange(256)
        self.lines[number] = bytes(line)

    def raw_value(self) -> None:
        """A number or a text written in an odd way, in place of some value."""
        number = self.chance.randrange(len(self.lines))
        parts = self.lines[number].split(b":")
        if len(parts) > 2:
            place = self.chance.randrange(1, len(parts))
            rest = parts[place].lstrip(b'"0123456789abcdefghijklmnopqrstuvwxyz/-_')
            odd = self.chance.choice(RAW_NUMBERS + RAW_TEXTS).encode()
            parts[place] = odd + rest
            self.lines[number] = b":".join(parts)

    def raw_line(self) -> None:
        """A line that is no row at all, or has something before or after it."""
        number = self.chance.randrange(len(self.lines))
        line = self.lines[number]
        deep = self.chance.choice((126, 127, 128, 1500))
        odd = self.chance.choice((
            b"", b" ", b"null", b"[]", b"1", b'"x"', b"{}", b"{" + line, line + b"}", line + b"\r", b" " + line + b"\t", b"\xef\xbb\xbf" + line,
            b"\x0b" + line, line + b"\x0c", line + line, line + b" {}", b'{"cell":"site","cell":"seq"}', line[: len(line) // 2],
            line[:-1] + b',"zz":' + b"[" * deep + b"]" * deep + b"}", line[:-1] + b',"cell":"node:7"}', line[:-1] + b',"uuid":"u-x"}',
            line[:-1] + b',"zz":"\xed\xa0\x80"}', b" " * self.chance.choice((1_048_576, 1_048_577 - len(line), 1_048_576 - len(line))) + line,
        ))  # fmt: skip
        if self.chance.random() < 0.7:
            self.lines[number] = odd
        else:
            self.lines.insert(number, odd)

    OF_ROWS: tuple[Callable[["Mutator"], None], ...] = (
        *[change] * 9, *[move] * 3, remove, add, recell, drop, drop, double, double, shuffle, chain, tree, tree, thread, thread, crowd,
    )  # fmt: skip
    OF_LINES: tuple[Callable[["Mutator"], None], ...] = (break_byte, break_byte, raw_value, raw_value, raw_line)


def small_site() -> list[Row]:
    """A site with a row or two of each kind, in which everything is used."""
    grants = [{"gid": 7, "realm": "club"}]
    record = {"delete": False, "gid": 7, "realm": "club", "update": False, "view": True}
    fields = [
        {"edit": None, "label": "Body", "name": "body", "owner": False, "teaser": True, "view": None},
        {"edit": "edit secret", "label": "Note", "name": "note", "owner": True, "teaser": False, "view": "view secret"},
    ]
    user = {"created": 5, "digest": None, "grants": grants, "roles": ["editor"], "salt": "", "status": True}
    node = {
        "changed": 9, "created": 8, "fields": {"body": "B", "note": "N"}, "grants": [record], "promote": True, "refs": [2], "status": True,
        "sticky": False, "terms": [1, 2], "type": "page", "uid": 2, "vid": 3,
    }  # fmt: skip
    block = {
        "age": None, "hide": False, "label": "L", "name": None, "paths": ["/a", "<front>", "/"], "region": "header",
        "roles": ["editor"], "text": None, "weight": -3,
    }  # fmt: skip
    listing = {"promoted": False, "term": 1, "title": "All", "types": ["page"]}
    rows: list[Row] = [
        {"cell": "site", "front": "/a", "name": "Site"},
        {"cell": "seq", "node": 4, "term": 3, "user": 4},
        {"cell": "type:page", "fields": fields, "label": "Page", "submitted": True},
    ]
    for name in ("anonymous", "authenticated", "editor"):
        rows.append({"admin": False, "cell": f"role:{name}", "grants": grants, "label": name, "permissions": ["access content", "view secret"]})
    for number in (1, 2, 3):
        rows.append({**user, "cell": f"user:{number}", "name": f"u{number}", "uuid": f"u-{number}"})
    rows[-1].update(digest="a" * 64, salt="b" * 32)
    for number in (1, 2):
        parent = 1 if number == 2 else None
        rows.append(
            {"cell": f"term:{number}", "description": "D\nE", "name": f"T{number}", "parent": parent, "status": True, "uuid": f"t-{number}"}
        )
    for number, path in ((1, "/a"), (2, "/b/c"), (3, None)):
        rows.append({**node, "cell": f"node:{number}", "path": path, "title": f"N{number}", "uuid": f"n-{number}"})
    links = [
        {"id": "a", "parent": None, "path": "/a", "title": "A", "weight": 0},
        {"id": "b", "parent": "a", "path": "/b/c", "title": "B", "weight": -5},
    ]
    rows.append({"cell": "menu:main", "label": "Main", "links": links})
    rows.append({**listing, "age": None, "cell": "listing:all", "path": "/all", "recent": None})
    rows.append({**listing, "age": 60, "cell": "listing:new", "path": "/node", "recent": 3600})
    kinds = {"text": {"text": "X"}, "menu": {"name": "main"}, "listing": {"name": "all"}, "greeting": {}, "csrf": {}, "clock": {"age": 60}}
    for kind, more in kinds.items():
        rows.append({**block, "cell": f"block:{kind}", "kind": kind, **more})
    rows.append({"cell": "session:abc", "expires": 4_000_000_000, "uid": 2})
    for number, node_id, parent in ((1, 1, None), (2, 1, 1), (3, 2, None)):
        rows.append({
            "body": "C\nD", "cell": f"comment:{number}", "created": 7, "node": node_id, "parent": parent, "status": number != 3, "uid": number - 1,
            "uuid": f"c-{number}",
        })  # fmt: skip
    rows.append({"cell": "talk", "comment": 4})
    return rows


def mutated(seed: int, bases: list[list[Row]]) -> bytes:
    """The mutated file of a number."""
    return Mutator(bases[seed % len(bases)], seed).file()
