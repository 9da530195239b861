"""The keys of each kind of row, in the order of their bytes, with what may stand at each."""

from __future__ import annotations

from typing import Mapping

from . import forms
from .asks import Ask, Columns, Each, Flag, MayLack, NullOr, Text, Texts, Whole
from .cells import GREATEST_ID

LAST_MOMENT = 4_102_444_800
GREATEST = GREATEST_ID + 1

MOMENT = Whole(0, LAST_MOMENT)
ID = Whole(1, GREATEST_ID)
NEXT_ID = Whole(1, GREATEST)
GID = Whole(0, GREATEST)
AGE = NullOr(Whole(0, 86_400))
WEIGHT = Whole(-1_000, 1_000)
NAME = Text(forms.NAME)
NAMES = Each(32, NAME)
TITLE = Text(forms.line(255))
PERMISSION = Text(forms.line(128))
BODY = Text(forms.BODY)
UUID = Text(forms.UUID)

GRANT = Columns("a grant", {"gid": GID, "realm": NAME})
RECORD = Columns(
    "an access record", {"delete": Flag(), "gid": GID, "realm": NAME, "update": Flag(), "view": Flag()}
)
FIELD = Columns(
    "a field of a type",
    {
        "edit": NullOr(PERMISSION),
        "label": Text(forms.line(64)),
        "name": NAME,
        "owner": Flag(),
        "teaser": Flag(),
        "view": NullOr(PERMISSION),
    },
)
LINK = Columns(
    "a link of a menu",
    {"id": NAME, "parent": NullOr(NAME), "path": Text(forms.TARGET), "title": TITLE, "weight": WEIGHT},
)
GRANTS = Each(64, GRANT)

SITE: Mapping[str, Ask] = {"front": Text(forms.FRONT_PATH), "name": TITLE}
SEQ: Mapping[str, Ask] = {"node": NEXT_ID, "term": NEXT_ID, "user": NEXT_ID}
TYPE: Mapping[str, Ask] = {"fields": Each(32, FIELD), "label": TITLE, "submitted": Flag()}
ROLE: Mapping[str, Ask] = {
    "admin": Flag(),
    "grants": GRANTS,
    "label": TITLE,
    "permissions": Each(256, PERMISSION),
}
USER: Mapping[str, Ask] = {
    "created": MOMENT,
    "digest": NullOr(Text(forms.DIGEST)),
    "grants": GRANTS,
    "name": Text(forms.line(60)),
    "roles": NAMES,
    "salt": Text(forms.SALT),
    "status": Flag(),
    "uuid": UUID,
}
TERM: Mapping[str, Ask] = {
    "description": BODY,
    "name": TITLE,
    "parent": MayLack(NullOr(ID)),
    "status": Flag(),
    "uuid": UUID,
}
NODE: Mapping[str, Ask] = {
    "changed": MOMENT,
    "created": MOMENT,
    "fields": Texts(),
    "grants": Each(64, RECORD),
    "path": NullOr(Text(forms.PATH)),
    "promote": Flag(),
    "refs": Each(8, ID),
    "status": Flag(),
    "sticky": Flag(),
    "terms": Each(32, ID),
    "title": TITLE,
    "type": NAME,
    "uid": Whole(0, GREATEST_ID),
    "uuid": UUID,
    "vid": Whole(1, GREATEST),
}
MENU: Mapping[str, Ask] = {"label": TITLE, "links": Each(256, LINK)}
LISTING: Mapping[str, Ask] = {
    "age": AGE,
    "path": NullOr(Text(forms.LISTING_PATH)),
    "promoted": Flag(),
    "recent": NullOr(Whole(1, 31_536_000)),
    "term": NullOr(ID),
    "title": TITLE,
    "types": NAMES,
}
BLOCK: Mapping[str, Ask] = {
    "age": AGE,
    "hide": Flag(),
    "kind": Text(forms.BLOCK_KIND),
    "label": Text(forms.line(255, least=0)),
    "name": NullOr(NAME),
    "paths": Each(32, Text(forms.BLOCK_PATH)),
    "region": Text(forms.REGION),
    "roles": NAMES,
    "text": NullOr(BODY),
    "weight": WEIGHT,
}
SESSION: Mapping[str, Ask] = {"expires": MOMENT, "uid": ID}
COMMENT: Mapping[str, Ask] = {
    "body": Text(forms.COMMENT),
    "created": MOMENT,
    "node": ID,
    "parent": NullOr(ID),
    "status": Flag(),
    "uid": Whole(0, GREATEST_ID),
    "uuid": UUID,
}
TALK: Mapping[str, Ask] = {"comment": NEXT_ID}

OF_KIND: Mapping[str, Mapping[str, Ask]] = {
    "site": SITE,
    "seq": SEQ,
    "type": TYPE,
    "role": ROLE,
    "user": USER,
    "term": TERM,
    "node": NODE,
    "menu": MENU,
    "listing": LISTING,
    "block": BLOCK,
    "session": SESSION,
    "comment": COMMENT,
    "talk": TALK,
}
