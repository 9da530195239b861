// The form of a node. What is changed is held against what was loaded, and only that is sent. Where somebody was faster, both stand side by side.

import { $, attempt, button, complain, drafts, labelled, make, say, show } from "./editor.page.js";
import { edit, isOpen, nodeNow, read, Refused } from "./editor.site.js";
import { fieldsOf, nodeRow, ofKind } from "./editor.export.js";

const MARKS = {
  status: ["Published", "published", "not published"],
  promote: ["Promoted", "promoted: such listings show it", "not promoted"],
  sticky: ["First in listings", "stands first", "stands in order"],
};

const lines = (text) => text.replace(/\r\n?/g, "\n");
const isSame = (a, b) => (Array.isArray(a) ? JSON.stringify(a) === JSON.stringify(b) : lines(a ?? "") === lines(b ?? ""));

let open = null; // { number, type, vid, why, base, values, theirs }

/** The values of a node as the form has them, each under its key. Of the marks nothing is known but what an export says. */
function valuesOf(number, node, vid) {
  const row = nodeRow(number, vid);
  const values = { title: node.title, path: node.path ?? "", terms: node.terms };
  for (const mark of Object.keys(MARKS)) values[mark] = row ? String(row[mark]) : "";
  for (const { name } of fieldsOf(node.type)) values[`fields.${name}`] = "";
  for (const [name, text] of Object.entries(node.fields)) values[`fields.${name}`] = text;
  return values;
}

const keysOf = (...all) => [...new Set(all.flatMap(Object.keys))];
const changed = (values, base) => keysOf(values, base).filter((key) => !isSame(values[key] ?? "", base[key] ?? ""));

/** What a change sends: just what differs from what was loaded. */
function bodyOf(values, base) {
  const body = {};
  for (const key of changed(values, base)) {
    const [outer, name] = key.split(".");
    if (outer === "fields") (body.fields ??= {})[name] = values[key] === "" ? null : values[key];
    else if (key === "path") body.path = values.path === "" ? null : values.path;
    else if (key in MARKS) body[key] = values[key] === "true";
    else body[key] = values[key];
  }
  return body;
}

/** Opens a node. What was typed into it before and isn't saved stands there again. */
export async function openNode(number, isShown = true) {
  const { node, vid, why } = await nodeNow(number);
  const base = valuesOf(number, node, vid);
  const draft = why === null ? drafts.get(`node ${number}`) : null;
  open = { number, type: node.type, created: node.created, owner: node.uid, vid, why, base, values: { ...base, terms: [...base.terms] }, theirs: {} };
  if (draft) {
    Object.assign(open, { base: draft.base, values: draft.values });
    takeNewer(base, vid);
  }
  draw();
  if (isShown) show("node");
  say(draft ? "What you typed before and didn't save stands here again." : "");
  if (draft && draft.vid !== vid) tellConflict();
  tellOpen(number).catch(() => {}); // only a hint: nothing waits for it
}

/** The newer version becomes what own changes are held against. Where both changed something, theirs is shown beside. */
function takeNewer(newest, vid) {
  const { base, values, theirs } = open;
  for (const key of keysOf(newest, base, values)) {
    const mine = !isSame(values[key] ?? "", base[key] ?? "");
    const isTold = !(key in MARKS) || (base[key] !== "" && newest[key] !== "");
    const other = isTold && !isSame(newest[key] ?? "", base[key] ?? "");
    if (!mine) values[key] = newest[key] ?? "";
    else if (other && !isSame(values[key], newest[key] ?? "")) theirs[key] = newest[key] ?? "";
  }
  open.base = newest;
  open.vid = vid;
}

function tellConflict() {
  const keys = Object.keys(open.theirs);
  const both = keys.length ? `Both of you changed: ${keys.map(nameOf).join(", ")}. Theirs stands beside yours.` : "You changed different things: both are kept.";
  complain(`Somebody was faster: this page is in version ${open.vid} by now, and yours isn't saved. ${both} Look at it, and save again.`);
}

function nameOf(key) {
  if (key in MARKS) return MARKS[key][0];
  const name = key.startsWith("fields.") ? key.slice(7) : null;
  if (name === null) return { title: "Title", path: "Path", terms: "Terms" }[key];
  return fieldsOf(open.type).find((it) => it.name === name)?.label ?? name;
}

async function tellOpen(number) {
  const isVisible = await isOpen(number);
  const said = $("visible");
  if (said && open?.number === number) said.textContent = isVisible ? "Everybody may see it." : "Visitors without a session may not see it.";
}

/** Notes that something was typed. */
function touch(key, value) {
  open.values[key] = value;
  delete open.theirs[key]; // who goes on typing has seen it
  keepDraft();
  $("unsaved").textContent = changed(open.values, open.base).length ? "Not saved yet." : "";
}

function keepDraft() {
  const { number, vid, base, values } = open;
  if (changed(values, base).length) drafts.keep(`node ${number}`, { vid, base, values });
  else drafts.drop(`node ${number}`);
}

const idOf = (key) => `node-${key.replace(/[^a-z0-9_]/g, "-")}`;

function textControl(key, name, properties) {
  const it = make(name, { id: idOf(key), value: open.values[key] ?? "", readOnly: open.why !== null, ...properties });
  it.addEventListener("input", () => touch(key, it.value));
  return it;
}

/** A control, and beside it what somebody else wrote there meanwhile. */
function beside(key, control) {
  if (!(key in open.theirs)) return make("div", { className: "pair" }, control);
  const text = Array.isArray(open.theirs[key]) ? open.theirs[key].join(", ") : open.theirs[key];
  const theirs = make(
    "div",
    { className: "theirs", id: `${idOf(key)}-theirs` },
    make("p", { className: "hint" }, `On the site now, version ${open.vid}:`),
    make("pre", {}, text === "" ? "(nothing)" : text),
    button("Take this in place of mine", () => {
      touch(key, open.theirs[key]);
      draw();
      $(idOf(key))?.focus();
    }),
  );
  return make("div", { className: "pair two" }, control, theirs);
}

function markControl(mark) {
  const [label, yes, no] = MARKS[mark];
  const known = open.base[mark];
  const asItIs = known === "" ? "as it is (the site doesn't tell)" : `as it is: ${known === "true" ? yes : no}`;
  const it = make("select", { id: idOf(mark), disabled: open.why !== null });
  const choices = known === "" ? [["", asItIs], ["true", yes], ["false", no]] : [["true", yes], ["false", no]];
  for (const [value, text] of choices) it.append(make("option", { value, selected: open.values[mark] === value }, text));
  it.addEventListener("change", () => touch(mark, it.value));
  return labelled(label, it);
}

function termsControl() {
  const names = new Map(ofKind("term").map(([number, row]) => [Number(number), row.name]));
  const list = make("ul", { className: "found" });
  const take = (terms) => {
    touch("terms", terms);
    const fresh = termsControl();
    box.replaceWith(fresh);
    fresh.querySelector("input, select").focus();
  };
  for (const term of open.values.terms) {
    const said = make("span", {}, names.get(term) ?? `term ${term}`);
    if (!names.has(term)) read(`/json/term/${term}`).then((it) => (said.textContent = it.name), () => {});
    const drop = button("Remove", () => take(open.values.terms.filter((it) => it !== term)), { disabled: open.why !== null });
    drop.setAttribute("aria-label", `Remove term ${names.get(term) ?? term}`);
    list.append(make("li", { className: "row" }, said, drop));
  }
  const number = names.size ? make("select", { id: idOf("terms") }) : make("input", { id: idOf("terms"), type: "number", min: 1, max: 4294967294 });
  for (const [term, name] of names) number.append(make("option", { value: term }, `${name} (${term})`));
  const add = () => {
    const term = Number(number.value);
    if (term >= 1 && !open.values.terms.includes(term)) take([...open.values.terms, term]);
  };
  const box = make(
    "fieldset",
    { disabled: open.why !== null },
    make("legend", {}, "Terms"),
    list,
    make("label", { htmlFor: number.id }, names.size ? "Term to add" : "Number of a term to add"),
    make("span", { className: "row" }, number, button("Add the term", add)),
    make("p", { className: "hint" }, "If you change terms, all are sent. Those that you may not see aren't here, and would be taken away."),
  );
  return box;
}

function fieldControls() {
  const box = make("fieldset", {}, make("legend", {}, "Fields"));
  for (const key of keysOf(open.values, open.base).filter((it) => it.startsWith("fields."))) {
    box.append(beside(key, labelled(nameOf(key), textControl(key, "textarea", { rows: 6 }))));
  }
  if (fieldsOf(open.type).length || open.why !== null) return box;
  const name = make("input", { id: "more-field", pattern: "[a-z0-9_]{1,64}", autocapitalize: "none", spellcheck: false });
  const add = button("Add the field", () => {
    const key = `fields.${name.value}`;
    if (!name.checkValidity() || name.value === "" || key in open.values) return;
    touch(key, "");
    draw();
    $(idOf(key)).focus();
  });
  box.append(
    make("label", { htmlFor: name.id }, "Name of another field"),
    make("span", { className: "row" }, name, add),
    make("p", { className: "hint" }, "The site tells just the fields that have a value. With an export loaded all fields of the type stand here, with their labels."),
  );
  return box;
}

/** Draws the form anew, out of what is open. */
function draw() {
  $("no-node").hidden = true;
  const form = $("node-form");
  form.hidden = false;
  $("node-head").textContent = `${open.base.title} (page ${open.number})`;
  const day = new Date(open.created * 1000).toISOString().slice(0, 10);
  const address = open.base.path === "" ? `/node/${open.number}` : open.base.path;
  form.replaceChildren(make("div", {},
    make("p", {}, `Type ${open.type}, made on ${day}, ${open.owner === 0 ? "nobody's" : `of user ${open.owner}`}${open.vid === null ? "" : `, version ${open.vid}`}. `,
      make("a", { href: address, target: "_blank", rel: "noopener" }, "See it"), ". ", make("span", { id: "visible" })),
    open.why === null ? null : make("p", { className: "trouble" }, `It can't be changed here. ${open.why}`),
    beside("title", labelled("Title", textControl("title", "input", { required: true }))),
    fieldControls(),
    beside("path", labelled("Path", textControl("path", "input", { autocapitalize: "none", spellcheck: false }), `As /news/ice; empty: /node/${open.number}.`)),
    ...Object.keys(MARKS).map((mark) => beside(mark, markControl(mark))),
    beside("terms", termsControl()),
    make("div", { className: "save row" },
      make("button", { className: "main", disabled: open.why !== null }, "Save"),
      button("Drop what I typed", dropTyped, { disabled: open.why !== null }),
      make("span", { id: "unsaved", role: "status" }, changed(open.values, open.base).length ? "Not saved yet." : "")),
  ));
}

async function dropTyped() {
  drafts.drop(`node ${open.number}`);
  await openNode(open.number);
  say("What you typed was dropped. This is what the site has.");
}

/** Marks the control that a refusal is about. */
function pointAt(fault) {
  const key = fault.code === "path-taken" ? "path" : fault.field;
  const control = key && ($(idOf(key)) ?? document.querySelector(`#node-form [id^="${idOf(key)}-"]:is(input, textarea)`));
  if (!control) return;
  control.setAttribute("aria-invalid", "true");
  control.focus();
}

/** Saves what was changed. */
async function save() {
  const body = bodyOf(open.values, open.base);
  if (!Object.keys(body).length) return say("There is nothing to save.");
  try {
    const answer = await edit("PATCH", `/node/${open.number}`, { ...body, vid: open.vid });
    drafts.drop(`node ${open.number}`);
    await openNode(open.number);
    return say(`Saved: version ${answer.vid}, and the site is in state ${answer.state}.`);
  } catch (fault) {
    if (!(fault instanceof Refused)) throw fault;
    if (fault.code !== "stale") {
      pointAt(fault);
      throw fault;
    }
    const { node, vid } = await nodeNow(open.number);
    takeNewer(valuesOf(open.number, node, vid), vid);
    keepDraft();
    draw();
    document.querySelector("#node-form .theirs")?.scrollIntoView({ block: "center" });
    return tellConflict();
  }
}

/** Lets the form be saved by its button and by Ctrl+S. */
export function begin() {
  $("node-form").addEventListener("submit", (event) => {
    event.preventDefault();
    attempt(save);
  });
  document.addEventListener("keydown", (event) => {
    if ((event.ctrlKey || event.metaKey) && event.key === "s" && !$("node").hidden && open) {
      event.preventDefault();
      attempt(save);
    }
  });
}

/** Draws the form anew where something else is known by now, as after a login. */
export async function refresh() {
  if (open) await openNode(open.number, !$("node").hidden);
}
