// Rows that are sent whole: blocks, menus, listings. They are taken from an export, and written over whatever the site has.

import { $, attempt, button, drafts, labelled, make, say } from "./editor.page.js";
import { edit } from "./editor.site.js";
import { loaded, ofKind } from "./editor.export.js";

const KINDS = ["block", "menu", "listing"];

// what stands in a form: key, label, kind of control, hint
const FORMS = {
  block: [
    ["label", "Label", "line", "Empty: no heading."],
    ["kind", "Kind", ["text", "menu", "listing", "greeting", "csrf", "clock"], ""],
    ["text", "Text, of the kind text", "text", ""],
    ["name", "Name of the menu or listing, of these kinds", "name", ""],
    ["age", "Seconds that a clock may be cached, of the kind clock", "number", ""],
    ["region", "Region", ["header", "aside", "footer"], ""],
    ["weight", "Weight", "number", "The least comes first."],
    ["paths", "Paths, one a line", "lines", "Where it stands; <front> is the front page. None: everywhere."],
    ["hide", "Everywhere but at these paths", "flag", ""],
    ["roles", "Roles, one a line", "lines", "Who sees it. None: everybody."],
  ],
  menu: [["label", "Label", "line", ""], ["links", "Links", "links", ""]],
  listing: [
    ["title", "Title", "line", ""],
    ["path", "Path", "name", "Empty: for a block alone."],
    ["types", "Types, one a line", "lines", "None: all types."],
    ["promoted", "Promoted pages alone", "flag", ""],
    ["term", "Number of a term", "number", "Its pages, and those of the terms below it. Empty: all."],
    ["recent", "Made within so many seconds", "number", "Empty: whenever."],
    ["age", "Seconds that it may be cached, where it has a span", "number", ""],
  ],
};
const LINK = [["title", "Title", "line"], ["path", "Path", "line"], ["weight", "Weight", "number"], ["parent", "Below the link with the id", "name"], ["id", "Id", "line"]];

let open = null; // { cell, kind, name, row }

/** Lists the rows of the export. */
export function listRows() {
  const rows = KINDS.flatMap((kind) => ofKind(kind).map(([name, row]) => [`${kind}:${name}`, row.label || row.title || name]));
  const choices = rows.map(([cell, text]) => make("option", { value: cell }, `${cell}: ${text}`));
  $("row").replaceChildren(make("option", { value: "" }, rows.length ? "Choose a row" : "No export is loaded"), ...choices);
  $("row-form").hidden = true;
  open = null;
}

function openRow(cell) {
  if (!cell) return void ($("row-form").hidden = true);
  const [kind, name] = cell.split(":");
  const draft = drafts.get(`row ${cell}`);
  open = { cell, kind, name, row: draft ?? structuredClone(loaded.rows.get(cell)) };
  draw();
  say(draft ? "What you typed before and didn't save stands here again." : "");
}

function touch(target, key, value) {
  target[key] = value;
  drafts.keep(`row ${open.cell}`, open.row);
}

const numberOf = (text) => (text === "" ? null : Number(text));
const linesOf = (text) => text.split("\n").map((it) => it.trim()).filter((it) => it !== "");

/** A control for a key of an object: what it shows of the value, and what it makes of what is typed. */
function controlOf(target, key, kind, id) {
  if (Array.isArray(kind)) {
    const it = make("select", { id });
    for (const word of kind) it.append(make("option", { value: word, selected: target[key] === word }, word));
    it.addEventListener("change", () => touch(target, key, it.value));
    return it;
  }
  if (kind === "flag") {
    const it = make("input", { id, type: "checkbox", checked: target[key] });
    it.addEventListener("change", () => touch(target, key, it.checked));
    return it;
  }
  const [name, type] = { line: ["input", "text"], name: ["input", "text"], number: ["input", "number"], text: ["textarea"], lines: ["textarea"] }[kind];
  const value = kind === "lines" ? target[key].join("\n") : target[key] ?? "";
  const it = make(name, type ? { id, type, value } : { id, value, rows: 4 });
  const made = { line: (text) => text, name: (text) => text || null, number: numberOf, text: (text) => text, lines: linesOf }[kind];
  it.addEventListener("input", () => touch(target, key, made(it.value)));
  return it;
}

function field(target, key, label, kind, hint, id) {
  const control = controlOf(target, key, kind, id);
  if (kind !== "flag") return labelled(label, control, hint);
  return make("p", {}, control, " ", make("label", { htmlFor: id }, label));
}

function linksControl() {
  const box = make("fieldset", { id: "row-links" }, make("legend", {}, "Links"));
  const { links } = open.row;
  links.forEach((link, at) => {
    const drop = button("Remove this link", () => take(links.filter((it) => it !== link)));
    drop.setAttribute("aria-label", `Remove the link ${link.title}`);
    const parts = LINK.map(([key, label, kind]) => field(link, key, label, kind, "", `row-links-${at}-${key}`));
    box.append(make("fieldset", {}, make("legend", {}, link.title || "New link"), ...parts, drop));
  });
  const take = (next) => {
    touch(open.row, "links", next);
    draw();
    $("row-links").querySelector("fieldset:last-of-type input")?.focus();
  };
  const id = () => `link_${1 + Math.max(0, ...links.map((it) => Number(/^link_(\d+)$/.exec(it.id)?.[1] ?? 0)))}`;
  box.append(button("Add a link", () => take([...links, { id: id(), parent: null, path: "", title: "", weight: 0 }])));
  return box;
}

function draw() {
  const form = $("row-form");
  form.hidden = false;
  const parts = FORMS[open.kind].map(([key, label, kind, hint]) => (kind === "links" ? linksControl() : field(open.row, key, label, kind, hint, `row-${key}`)));
  form.replaceChildren(
    make("h3", {}, open.cell),
    ...parts,
    make("div", { className: "save row" }, make("button", { className: "main" }, "Send it whole"), button("Drop what I typed", dropTyped)),
  );
}

function dropTyped() {
  drafts.drop(`row ${open.cell}`);
  openRow(open.cell);
  say("What you typed was dropped. This is what the export has.");
}

/** The row as it is sent: what its kind doesn't have is null. */
function sent() {
  const { cell, ...row } = open.row;
  if (open.kind === "block") {
    row.text = row.kind === "text" ? row.text ?? "" : null;
    row.name = row.kind === "menu" || row.kind === "listing" ? row.name : null;
    row.age = row.kind === "clock" ? row.age : null;
  }
  if (open.kind === "listing" && row.recent === null) row.age = null;
  return row;
}

async function send() {
  const row = sent();
  try {
    const { state } = await edit("POST", `/config/${open.kind}/${open.name}`, row);
    loaded.rows.set(open.cell, { ...row, cell: open.cell });
    drafts.drop(`row ${open.cell}`);
    say(`Sent: ${open.cell} is as it stands here, and the site is in state ${state}.`);
  } catch (fault) {
    const control = fault.field && $(`row-${fault.field}`);
    if (control) {
      control.setAttribute("aria-invalid", "true");
      control.focus();
    }
    throw fault;
  }
}

/** Lets rows be chosen and sent. */
export function begin() {
  $("row").addEventListener("change", () => attempt(() => openRow($("row").value)));
  $("row-form").addEventListener("submit", (event) => {
    event.preventDefault();
    attempt(send);
  });
}
