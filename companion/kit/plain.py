"""HTML and Markdown made into plain paragraphs, since a field shows text alone."""

from __future__ import annotations

import re
from html.parser import HTMLParser
from typing import Optional
from urllib.parse import urlsplit

BLOCKS = frozenset(
    "address article aside blockquote body caption center dd details div dl dt fieldset figcaption figure footer form h1 h2 h3 "
    "h4 h5 h6 header hr html legend li main nav ol p pre section summary table tbody td tfoot th thead title tr ul".split()
)
UNSHOWN = frozenset("script style template head iframe object noscript svg select textarea button".split())
TIGHT = frozenset(("li", "tr", "dt", "dd"))


class _Plain(HTMLParser):
    """Takes tags as they come. Paragraphs are told apart by an empty line, items and rows by the end of a line."""

    def __init__(self, own_hosts: frozenset[str], keeps_lines: bool) -> None:
        super().__init__(convert_charrefs=True)
        self.pieces: list[str] = []
        self._own_hosts, self._keeps_lines = own_hosts, keeps_lines
        self._unshown, self._pre, self._cells = 0, 0, 0
        self._lists: list[Optional[int]] = []
        self._links: list[tuple[str, int]] = []

    def _put(self, text: str) -> None:
        if text:
            self.pieces.append(text)

    def _break(self, count: int) -> None:
        """Ends the line, and leaves empty lines until so many ends of lines stand there."""
        text = "".join(self.pieces[-4:])
        ends = len(text) - len(text.rstrip("\n"))
        self._put("\n" * (count - ends))

    def _is_at_start(self) -> bool:
        """Whether nothing stands on the line yet."""
        text = "".join(self.pieces[-4:])
        return not text or text.endswith("\n")

    def handle_starttag(self, tag: str, attrs: list[tuple[str, Optional[str]]]) -> None:
        if tag in UNSHOWN:
            self._unshown += 1
        if tag == "br":
            self.pieces.append("\n")
        elif tag == "img":
            self._image(dict(attrs).get("alt") or "")
        elif tag == "a":
            self._links.append((dict(attrs).get("href") or "", len(self.pieces)))
        elif tag in BLOCKS:
            self._block(tag)

    def handle_startendtag(self, tag: str, attrs: list[tuple[str, Optional[str]]]) -> None:
        if tag in ("br", "img", "hr"):
            self.handle_starttag(tag, attrs)

    def _image(self, words: str) -> None:
        if words.strip() and not self._unshown:
            self.pieces.append(f"[{' '.join(words.split())}]")

    def _block(self, tag: str) -> None:
        if tag in ("td", "th"):
            self._cells += 1
            if self._cells > 1:
                self.pieces.append(" | ")
            return
        is_inner = tag in ("ul", "ol") and bool(self._lists)
        self._break(1 if tag in TIGHT or is_inner else 2)
        if tag == "tr":
            self._cells = 0
        elif tag == "pre":
            self._pre += 1
        elif tag in ("ul", "ol"):
            self._lists.append(0 if tag == "ol" else None)
        elif tag == "li":
            self.pieces.append(self._bullet())

    def _bullet(self) -> str:
        front = "  " * max(0, len(self._lists) - 1)
        if not self._lists or self._lists[-1] is None:
            return front + "- "
        self._lists[-1] += 1
        return f"{front}{self._lists[-1]}. "

    def handle_endtag(self, tag: str) -> None:
        if tag in UNSHOWN:
            self._unshown = max(0, self._unshown - 1)
        elif tag == "a" and self._links:
            self._end_link()
        elif tag in ("td", "th"):
            return
        elif tag in BLOCKS:
            if tag == "pre":
                self._pre = max(0, self._pre - 1)
            elif tag in ("ul", "ol") and self._lists:
                self._lists.pop()
            self._break(1 if tag in TIGHT or self._lists else 2)

    def _end_link(self) -> None:
        """A link to another site is told behind its words."""
        target, begun = self._links.pop()
        told = urlsplit(target)
        words = "".join(self.pieces[begun:]).strip()
        if told.scheme == "mailto" and told.path not in words:
            self.pieces.append(f" ({told.path})")
        elif told.scheme in ("http", "https") and told.netloc.lower() not in self._own_hosts and target not in words:
            self.pieces.append(f" ({target})")

    def handle_data(self, data: str) -> None:
        if self._unshown:
            return
        if not (self._pre or self._keeps_lines):
            data = re.sub(r"\s+", " ", data)
            if self._is_at_start():
                data = data.lstrip()
        self._put(data)


def tidy(text: str) -> str:
    """A text without white space at the ends of lines, and with one empty line at most between others."""
    lines = [line.rstrip() for line in text.replace("\r\n", "\n").replace("\xa0", " ").split("\n")]
    return re.sub(r"\n{3,}", "\n\n", "\n".join(lines)).strip("\n")


def from_html(html: str, own_hosts: frozenset[str] = frozenset(), keeps_lines: bool = False) -> str:
    """HTML as plain paragraphs. Where lines are kept, the ends of lines in the source are ends of lines."""
    parser = _Plain(own_hosts, keeps_lines)
    parser.feed(html)
    parser.close()
    return tidy("".join(parser.pieces))


def looks_like_html(text: str) -> bool:
    """Whether a text has tags of HTML in it."""
    return re.search(r"</?(p|br|div|ul|ol|li|strong|em|b|i|a|h[1-6]|img|table|blockquote|span)\b[^>]*>", text, re.I) is not None


_MARKS = (
    (re.compile(r"!\[([^\]]*)\]\([^)]*\)"), lambda found: f"[{found[1]}]" if found[1] else ""),
    (re.compile(r"\[([^\]]+)\]\(\s*<?(https?://[^)\s>]+)>?[^)]*\)"), lambda found: _with_address(found[1], found[2])),
    (re.compile(r"\[([^\]]+)\]\([^)]*\)"), lambda found: found[1]),
    (re.compile(r"\[([^\]]+)\]\[[^\]]*\]"), lambda found: found[1]),
    (re.compile(r"<(https?://[^>\s]+|[^@<>\s]+@[^@<>\s]+)>"), lambda found: found[1]),
    (re.compile(r"(\*\*|__)(?=\S)(.+?)(?<=\S)\1"), lambda found: found[2]),
    (re.compile(r"(?<![\w*])([*_])(?=\S)(.+?)(?<=\S)\1(?![\w*])"), lambda found: found[2]),
    (re.compile(r"(`+)(.+?)\1"), lambda found: found[2].strip()),
)


def _with_address(words: str, address: str) -> str:
    return words if words == address else f"{words} ({address})"


_ESCAPED = re.compile(r"\\([\\`*_{}\[\]()#+\-.!>])")
_FAR = 0xE000
"""Signs behind a backslash stand for themselves: until the marks are taken out they stand among the letters for private use."""


def _without_marks(line: str) -> str:
    line = _ESCAPED.sub(lambda found: chr(_FAR + ord(found[1])), line)
    for mark, plain in _MARKS:
        line = mark.sub(plain, line)
    return re.sub("[\ue000-\ue07f]", lambda found: chr(ord(found[0]) - _FAR), line)


def _plain_line(line: str) -> Optional[str]:
    """A line of Markdown outside of code, or nothing where it is a mark alone."""
    if re.fullmatch(r"\s*([-*_]\s*){3,}", line) or re.fullmatch(r"\s*(=+|-{2,})\s*", line):
        return ""
    if re.match(r"\s*\[[^\]]+\]:\s*\S+", line):
        return None
    line = re.sub(r"^\s{0,3}#{1,6}\s+(.*?)\s*#*$", r"\1", line)
    line = re.sub(r"^\s{0,3}>\s?", "", line)
    line = re.sub(r"^(\s*)[*+-]\s+", r"\1- ", line)
    if re.fullmatch(r"\s*\|?[\s:|-]+\|[\s:|-]*", line):
        return None
    if line.lstrip().startswith("|"):
        line = line.strip().strip("|").strip()
    return _without_marks(line)


def _joins(before: str, line: str) -> bool:
    """Whether a line goes on with the one before, as lines of a paragraph do."""
    return bool(before and line) and not re.match(r"\s*(- |\d+[.)] )|.* \| ", line) and " | " not in before


def from_markdown(text: str) -> str:
    """Markdown as plain paragraphs: marks are left out, code stays as it is, lines of a paragraph are joined."""
    lines: list[str] = []
    fence = ""
    for line in text.replace("\r\n", "\n").split("\n"):
        mark = re.match(r"\s*(```+|~~~+)", line)
        if mark and (not fence or line.strip().startswith(fence)):
            fence = "" if fence else mark[1]
            lines.append("")
            continue
        if fence:
            lines.append(line)
            continue
        is_heading = bool(re.match(r"\s{0,3}#{1,6}\s", line))
        breaks = line.endswith("  ") or line.endswith("\\")
        plain = _plain_line(line.rstrip().rstrip("\\") if breaks else line)
        if plain is None:
            continue
        if lines and not is_heading and _joins(lines[-1], plain) and not lines[-1].endswith("\v"):
            lines[-1] += " " + plain.strip()
        else:
            lines.append(plain.rstrip() if plain.lstrip().startswith("- ") else plain.strip())
        if is_heading:
            lines.append("")
        if breaks and lines[-1]:
            lines[-1] += "\v"
    joined = "\n".join(lines).replace("\v", "")
    return from_html(joined, keeps_lines=True) if looks_like_html(joined) else tidy(joined)
