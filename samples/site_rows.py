"""The rows of a site, put together and written in the order of their cells.

A row is one JSON object a line, compact, its keys in the order of their bytes. docs/reference/ROWS.md has the kinds of rows
and their keys.
"""
import calendar
import hashlib
import json
import time
import uuid

KINDS = ["site", "seq", "type", "role", "user", "term", "node", "menu", "listing", "block", "session", "comment",
         "talk"]
NUMBERED = ("user", "term", "node", "comment")
OF_SEQ = ("user", "term", "node")


def moment(text):
    """Seconds since 1970 of a day, or of a day and a time, in UTC: `2026-03-01` or `2026-03-01 09:30`."""
    form = "%Y-%m-%d %H:%M" if " " in text else "%Y-%m-%d"
    return calendar.timegm(time.strptime(text, form))


def digest(salt, password):
    """What a user's row keeps of a password: a thousand rounds of SHA-256."""
    kept = salt.encode() + b":"
    for _ in range(1000):
        kept = hashlib.sha256(kept + password.encode()).digest()
    return kept.hex()


def line(row):
    """A row as it stands in a file."""
    return json.dumps(row, ensure_ascii=False, separators=(",", ":"), sort_keys=True)


def field(name, label, teaser=False, view=None, edit=None, owner=False):
    """A field of a type. `view` and `edit` name permissions; `owner` keeps it to the owner of the node."""
    return {"edit": edit, "label": label, "name": name, "owner": owner, "teaser": teaser, "view": view}


def grant(realm, gid):
    """A grant that a user or a role holds."""
    return {"gid": gid, "realm": realm}


def record(realm, gid, view=True, update=False, delete=False):
    """What a node lets the holders of a grant do."""
    return {"delete": delete, "gid": gid, "realm": realm, "update": update, "view": view}


def link(name, path, title, parent=None, weight=0):
    """A link of a menu."""
    return {"id": name, "parent": parent, "path": path, "title": title, "weight": weight}


def place(cell):
    """Where a cell stands: by its kind, and within a kind by number, or by the bytes of the name."""
    kind, name = cell
    return KINDS.index(kind), name if kind in NUMBERED else name.encode()


class Site:
    """A site that is being written. Users, terms, nodes and comments are numbered as they come, and named by words until then."""

    def __init__(self, host, name, front):
        self.host = host
        self.rows = {("site", ""): {"front": front, "name": name}}
        self.ids = {kind: {} for kind in NUMBERED}

    def _put(self, kind, name, row):
        if (kind, name) in self.rows:
            raise ValueError(f"{kind}:{name} is there twice")
        self.rows[(kind, name)] = row

    def _number(self, kind, key, row):
        if key in self.ids[kind]:
            raise ValueError(f"{kind} {key} is there twice")
        number = len(self.ids[kind]) + 1
        self.ids[kind][key] = number
        row["uuid"] = str(uuid.uuid5(uuid.NAMESPACE_URL, f"https://{self.host}/{kind}/{number}"))
        self._put(kind, number, row)

    def type(self, name, label, fields, submitted=False):
        self._put("type", name, {"fields": fields, "label": label, "submitted": submitted})

    def role(self, name, label, permissions, grants=(), admin=False):
        self._put("role", name, {
            "admin": admin, "grants": list(grants), "label": label, "permissions": sorted(permissions),
        })

    def user(self, name, created, password=None, roles=(), grants=(), status=True):
        salt = hashlib.sha256(f"{self.host} {name}".encode()).hexdigest()[:32] if password else ""
        self._number("user", name, {
            "created": moment(created), "digest": digest(salt, password) if password else None, "grants": list(grants),
            "name": name, "roles": list(roles), "salt": salt, "status": status,
        })

    def term(self, key, name, description="", parent=None, status=True):
        """A term under the one of the word `parent`, or at the top."""
        self._number("term", key, {"description": description, "name": name, "parent": parent, "status": status})

    def node(self, type, key, title, fields, at, by=None, changed=None, path=None, terms=(), refs=(), grants=(), promote=False,
             sticky=False, status=True, vid=1):
        """A node by the user `by`, with terms and references by their words."""
        self._number("node", key, {
            "changed": moment(changed or at), "created": moment(at), "fields": fields, "grants": list(grants), "path": path,
            "promote": promote, "refs": list(refs), "status": status, "sticky": sticky,
            "terms": [self.ids["term"][term] for term in terms], "title": title, "type": type,
            "uid": self.ids["user"][by] if by else 0, "vid": vid,
        })

    def comment(self, key, node, at, by, body, under=None, status=True):
        """A comment on a node by the user `by`, in reply to the one of the word `under`."""
        self._number("comment", key, {
            "body": body, "created": moment(at), "node": self.ids["node"][node],
            "parent": self.ids["comment"][under] if under else None, "status": status,
            "uid": self.ids["user"][by] if by else 0,
        })

    def menu(self, name, label, links):
        self._put("menu", name, {"label": label, "links": links})

    def listing(self, name, path, title, types=(), term=None, promoted=False, recent=None, age=None):
        self._put("listing", name, {
            "age": age, "path": path, "promoted": promoted, "recent": recent,
            "term": self.ids["term"][term] if term else None, "title": title, "types": list(types),
        })

    def block(self, name, kind, region, weight, label="", shows=None, text=None, age=None, paths=(), hide=False, roles=()):
        """A placed block. `shows` names the menu or the listing that it shows."""
        self._put("block", name, {
            "age": age, "hide": hide, "kind": kind, "label": label, "name": shows, "paths": list(paths), "region": region,
            "roles": list(roles), "text": text, "weight": weight,
        })

    def rows_in_order(self):
        """All rows in the order of their cells, each with the kind of its cell."""
        nodes, terms = self.ids["node"], self.ids["term"]
        rows = dict(self.rows)
        rows[("seq", "")] = {kind: len(self.ids[kind]) + 1 for kind in OF_SEQ}
        if self.ids["comment"]:
            rows[("talk", "")] = {"comment": len(self.ids["comment"]) + 1}
        for kind, name in sorted(rows, key=place):
            row = dict(rows[(kind, name)], cell=f"{kind}:{name}" if name else kind)
            if kind == "node":
                row["refs"] = [nodes[key] for key in row["refs"]]
            if kind == "term" and row["parent"]:
                row["parent"] = terms[row["parent"]]
            yield kind, row

    def lines(self):
        """The rows as the lines of a file."""
        return [line(row) for _, row in self.rows_in_order()]
