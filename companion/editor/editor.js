// The editor's page: who is logged in, its parts, and the export.

import { $, attempt, complain, drafts, say, show, whenRefused } from "./editor.page.js";
import { findGuard, logIn, logOut, read, Refused } from "./editor.site.js";
import { load, loaded } from "./editor.export.js";
import * as comments from "./editor.comments.js";
import * as find from "./editor.find.js";
import * as node from "./editor.node.js";
import * as rows from "./editor.rows.js";

const NO_GUARD = "You are logged in, but no page shows the value that guards your edits. Somebody has to place a block of kind csrf on /user/login, for every role that edits.";

function tellWho(text, isIn) {
  $("who").textContent = text;
  $("log-in").hidden = isIn;
  $("log-out").hidden = !isIn;
}

/** Tells who is logged in. The number is known of a login that was made here. */
async function lookWho() {
  if (!(await findGuard())) {
    sessionStorage.removeItem("site-editor-user");
    tellWho("Nobody is logged in.", false);
    return false;
  }
  const user = sessionStorage.getItem("site-editor-user");
  let name = "";
  try {
    name = user ? (await read(`/json/user/${user}`)).name : "";
  } catch (fault) {
    if (!(fault instanceof Refused)) throw fault;
  }
  tellWho(name ? `Logged in as ${name}.` : "Logged in.", true);
  return true;
}

async function enter(event) {
  const user = await logIn($("name").value, $("pass").value);
  sessionStorage.setItem("site-editor-user", String(user));
  $("pass").value = "";
  if (!(await lookWho())) return complain(NO_GUARD);
  await node.refresh();
  return say($("node-form").hidden ? "You are logged in." : "You are logged in. What you typed is still here.");
}

async function leave() {
  const left = drafts.names();
  if (left.length && !$("log-out").dataset.sure) {
    $("log-out").dataset.sure = "yes";
    return complain(`What you typed isn't saved: ${left.join(", ")}. It stays in this browser, for whoever uses it next. Log out again to do so all the same.`);
  }
  delete $("log-out").dataset.sure;
  await logOut();
  await lookWho();
  await node.refresh();
  return say("You are logged out.");
}

async function loadFile() {
  const [file] = $("file").files;
  if (!file) return;
  try {
    await load(file);
  } finally {
    $("file").value = ""; // so that the same file may be chosen again
  }
  $("loaded").textContent = `${loaded.name}: ${loaded.rows.size} rows.`;
  find.offerListings();
  comments.listWaiting();
  rows.listRows();
  await node.refresh();
  say(`${loaded.name} was read.`);
}

for (const it of document.querySelectorAll("nav button")) it.addEventListener("click", () => show(it.dataset.part));
$("log-in-form").addEventListener("submit", (event) => {
  event.preventDefault();
  attempt(enter);
});
$("log-out").addEventListener("click", () => attempt(leave));
$("file").addEventListener("change", () => attempt(loadFile));
for (const part of [find, node, comments, rows]) part.begin();
whenRefused.look = async () => {
  const wasIn = $("log-in").hidden;
  if (!(await lookWho()) && wasIn) $("name").focus(); // whoever types a password again keeps the focus
};
attempt(async () => {
  await lookWho();
  const left = drafts.names().filter((it) => it.startsWith("node "));
  if (left.length) say(`What you typed and didn't save is kept: ${left.map((it) => it.replace("node", "page")).join(", ")}. Open it to go on.`);
});
document.documentElement.dataset.ready = "yes";
