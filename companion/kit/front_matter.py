"""The head of a Markdown file: names and values between two lines `---`, or in TOML between two lines `+++`."""

from __future__ import annotations

import re
from dataclasses import dataclass, field
from typing import Union

Value = Union[str, list[str]]


@dataclass
class Front:
    """What stands in the head of a file, by names in small letters."""

    values: dict[str, Value] = field(default_factory=dict)

    def text(self, *names: str) -> str:
        """The first of these that is there, as one text."""
        for name in names:
            value = self.values.get(name)
            if isinstance(value, str) and value:
                return value
            if isinstance(value, list) and value:
                return value[0]
        return ""

    def texts(self, *names: str) -> list[str]:
        """All that stand at these names."""
        found: list[str] = []
        for name in names:
            value = self.values.get(name, [])
            found.extend([value] if isinstance(value, str) and value else value or [])
        return found

    def flag(self, name: str) -> bool | None:
        """Whether it says yes; none where it isn't there."""
        word = self.text(name).lower()
        return None if not word else word in ("true", "yes", "1", "on")


def _unquoted(text: str) -> str:
    text = text.strip()
    if len(text) > 1 and text[0] == text[-1] and text[0] in "\"'":
        return text[1:-1].replace('\\"', '"') if text[0] == '"' else text[1:-1].replace("''", "'")
    return re.sub(r"\s+#.*$", "", text)


def _value(text: str) -> Value:
    text = text.strip()
    if text.startswith("[") and text.endswith("]"):
        members = re.findall(r"\s*(\"(?:[^\"\\]|\\.)*\"|'(?:[^']|'')*'|[^,]+)", text[1:-1])
        return [_unquoted(member) for member in members if member.strip()]
    return _unquoted(text)


def _read(lines: list[str], sign: str) -> Front:
    front, last = Front(), ""
    for line in lines:
        item = re.match(r"\s*-\s+(.*)", line)
        pair = re.match(r"([A-Za-z_][\w-]*)\s*" + sign + r"\s*(.*)", line)
        if item and last:
            value = front.values.get(last)
            front.values[last] = [*(value if isinstance(value, list) else []), _unquoted(item[1])]
        elif pair:
            last = pair[1].lower().replace("-", "_")
            front.values[last] = _value(pair[2])
        elif line.startswith((" ", "\t")) and last and isinstance(front.values.get(last), str):
            joined = f"{front.values[last]} {line.strip()}".lstrip("|> ").strip()
            front.values[last] = joined
    return front


def split(text: str) -> tuple[Front, str]:
    """The head of a file and what follows it."""
    text = text.lstrip("\ufeff").replace("\r\n", "\n")
    for mark, sign in (("---", ":"), ("+++", "=")):
        lines = text.split("\n")
        if lines[0].strip() == mark:
            ends = [at for at, line in enumerate(lines[1:], 1) if line.strip() == mark]
            if ends:
                return _read(lines[1 : ends[0]], sign), "\n".join(lines[ends[0] + 1 :])
    return Front(), text
