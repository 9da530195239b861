"""`lint`: what it says of wrong files, what it warns of, and that the program says the same is first."""

from __future__ import annotations

import json
import subprocess
from concurrent.futures import ThreadPoolExecutor
from typing import Any, Callable

import mutate
import support
from kit.lint import look

MUTATIONS = 400


def of_rows(rows: list[dict[str, Any]]) -> str:
    return "".join(json.dumps(row) + "\n" for row in rows)


class Lint(support.Case):
    def site(self, change: Callable[[dict[str, dict[str, Any]]], None]) -> str:
        """A small site's file, after a change of its rows."""
        rows = {row["cell"]: row for row in mutate.small_site()}
        change(rows)
        return self.write("site.rows", of_rows(list(rows.values())))

    def test_samples_are_clean(self) -> None:
        for name in ("town", "school", "publisher"):
            said = self.run_kit("lint", "--strict", str(support.SAMPLES / f"{name}.rows")).stdout
            self.assertIn("no faults, no warnings", said)

    def test_every_fault_at_once(self) -> None:
        def change(rows: dict[str, dict[str, Any]]) -> None:
            rows["menu:main"]["links"][1]["path"] = "/B"
            rows["menu:main"]["links"][1]["wieght"] = rows["menu:main"]["links"][1].pop("weight")
            rows["node:1"]["title"] = ""
            rows["node:2"]["uid"] = 17
            rows["block:clock"]["age"] = None
            del rows["listing:all"]["types"]

        said = self.run_kit("lint", self.site(change), status=3).stdout
        for words in (
            "the program would say: line 12: length title",
            "line 12, node:1: title: '' has 0 bytes; allowed are 1 to 255 bytes",
            "menu:main: links[1].path: '/B'",
            "links[1].wieght: there is no key 'wieght' here",
            "did you mean 'weight'?",
            "links[1].weight: the key 'weight' isn't there",
            "listing:all: types: the key 'types' isn't there",
            "block:clock: age: in a block of the kind clock it has to be there [pair]",
            "node:2: uid: there is no user:17 [absent]",
        ):
            self.assertIn(words, said)
        self.assertIn("7 faults", said)

    def test_comments(self) -> None:
        def change(rows: dict[str, dict[str, Any]]) -> None:
            rows["comment:1"]["node"] = 9
            rows["comment:2"].update(uid=17, parent=3)
            rows["comment:3"].update(uuid="c-1", parent=3)
            del rows["talk"]

        said = self.run_kit("lint", self.site(change), status=3).stdout
        for words in (
            "the program would say: cell comment:1: absent node",
            "comment:1: node: there is no node:9 [absent]",
            "comment:2: uid: there is no user:17 [absent]",
            "comment:2: parent: comment:3 is on node:2, and this on node:1 [absent]",
            "comment:3: parent: its parents lead round in a circle [cycle]",
            "comment:3: uuid: 'c-1' is the uuid of comment:1 already [taken]",
            "talk: cell: a site with comments has a row `talk`, and it isn't there [missing]",
        ):
            self.assertIn(words, said)
        said = self.run_kit("lint", self.site(lambda rows: rows["comment:1"].update(body="")), status=3).stdout
        self.assertIn("comment:1: body: '' has 0 bytes; allowed are 1 to 65,536 bytes", said)
        said = self.run_kit("lint", self.site(lambda rows: rows["talk"].update(comment=3)), status=3).stdout
        self.assertIn("the program would say: cell talk: range comment", said)

    def test_a_node_has_a_thousand_comments(self) -> None:
        def change(rows: dict[str, dict[str, Any]]) -> None:
            one = {**rows["comment:3"], "node": 1}
            rows.update({f"comment:{it}": {**one, "cell": f"comment:{it}", "uuid": f"many-{it}"} for it in range(4, 1003)})
            rows["talk"]["comment"] = 2000

        said = self.run_kit("lint", self.site(change), status=3).stdout
        self.assertIn("comment:1002: node: node:1 has 1000 comments before it; at most 1,000 are allowed [many]", said)
        self.assertIn("1 fault,", said)

    def test_warnings(self) -> None:
        def change(rows: dict[str, dict[str, Any]]) -> None:
            rows["site"]["front"] = "/b/d"
            rows["node:1"]["fields"]["boddy"] = "x"
            rows["node:1"]["terms"] = [77]
            rows["node:3"].update(path="/lonely", terms=[], type="note", refs=[])
            rows["node:2"].update(refs=[])
            rows["type:note"] = {"cell": "type:note", "fields": [], "label": "Note", "submitted": False}
            rows["role:editor"]["permissions"].append("edit any pgae content")
            rows["block:text"]["paths"] = ["/nowhere"]
            rows["block:menu"]["name"] = "mian"
            rows["listing:all"]["types"] = ["pagee"]
            rows["listing:new"]["types"] = ["page"]
            rows["user:2"]["roles"] = ["editor", "chief"]

        said = self.run_kit("lint", "--all", self.site(change)).stdout
        for words in (
            "site: the front path /b/d leads nowhere; did you mean '/b/c'?",
            "node:1: its field boddy isn't shown",
            "node:1: it has term:77, which isn't there",
            "no menu, listing, term or reference leads to /lonely",
            "nothing asks for its permission 'edit any pgae content'; did you mean 'edit any page content'?",
            "block:text: it is placed at /nowhere, where nothing is",
            "block:menu: it shows menu:mian, which isn't there; did you mean 'main'?",
            "menu:main: no block shows it",
            "listing:all: it lists type:pagee, which isn't there",
            "user:2: it has role:chief, which isn't there",
            "no role has 'edit secret', which a field of it asks for",
            "user:1: nobody with every permission has a password",
        ):
            self.assertIn(words, said)
        self.run_kit("lint", "--strict", self.path("site.rows"), status=1)

    def test_paths_below_json(self) -> None:
        def change(rows: dict[str, dict[str, Any]]) -> None:
            rows["site"]["front"] = "/json/node/1"
            for number, link in enumerate(rows["menu:main"]["links"]):
                link["path"] = f"/json/node/{1 if number == 0 else 99}"

        said = self.run_kit("lint", "--all", self.site(change)).stdout
        self.assertIn("the front path /json/node/1 leads nowhere", said)
        self.assertIn("leads to /json/node/99, where nothing is", said)
        self.assertNotIn("leads to /json/node/1,", said)
        for path in ("/json", "/json/x"):
            said = self.run_kit("lint", self.site(lambda rows: rows["node:1"].update(path=path)), status=3).stdout
            self.assertIn(f"node:1: path: '{path}' ", said)
            self.assertIn("[reserved]", said)

    def test_onto_a_site(self) -> None:
        site = self.site(lambda rows: None)
        user = {**mutate.small_site()[7], "cell": "user:3", "name": "u2"}
        more = self.write("more.rows", of_rows([user]))
        self.assertEqual(self.run_kit("lint", "--first", more, status=3).stdout, "cell site: missing cell\n")
        self.assertEqual(self.run_kit("lint", "--first", more, "--onto", site, status=3).stdout, "cell user:3: taken uuid\n")
        self.imported(site)
        said = self.run_site("import", "--store", self.path("site.db"), given=support.Path(more).read_bytes(), status=3)
        self.assertEqual(said, "cell user:3: taken uuid\n")

    def test_what_is_no_file(self) -> None:
        self.assertIn("No such file", self.run_kit("lint", "nowhere.rows", status=1).stderr)
        self.assertEqual(self.run_kit("lint", "--first", "-", status=3).stdout, "cell site: missing cell\n")

    def test_the_program_says_the_same(self) -> None:
        """A few hundred mutated files; companion/trials/mutations has thousands."""
        bases = [mutate.small_site()]

        def compare(seed: int) -> str | None:
            data = mutate.mutated(seed, bases)
            file = self.write(f"{seed}.rows", data)
            done = subprocess.run([support.site(), "replay", file], stdin=subprocess.DEVNULL, capture_output=True, timeout=support.SECONDS)
            first = look(data, {}).first
            said = "" if first is None else f"{first}\n"
            is_same = done.stdout == said.encode("utf-8", "surrogatepass") and done.returncode == (3 if first else 0)
            return None if is_same else f"{seed}: lint {first!r}, the program {done.returncode} {done.stdout!r}"

        with ThreadPoolExecutor(4) as pool:
            differences = [it for it in pool.map(compare, range(MUTATIONS)) if it]
        self.assertEqual(differences, [])
