// Comments: those of the export that wait for approval, and any one by its number.

import { $, attempt, button, make, say } from "./editor.page.js";
import { edit } from "./editor.site.js";
import { loaded, waiting } from "./editor.export.js";

const DONE = { publish: "published", hide: "hidden", remove: "removed, with its replies" };

async function change(number, what) {
  const cell = `comment:${number}`;
  if (what === "remove") await edit("DELETE", `/comment/${number}`);
  else await edit("PATCH", `/comment/${number}`, { status: what === "publish" });
  if (what === "remove") loaded.rows.delete(cell);
  else if (loaded.rows.has(cell)) loaded.rows.get(cell).status = what === "publish";
  listWaiting();
  say(`Comment ${number} is ${DONE[what]}.`);
}

function item([number, row]) {
  const node = loaded.rows.get(`node:${row.node}`)?.title ?? `page ${row.node}`;
  const author = loaded.rows.get(`user:${row.uid}`)?.name ?? "Anonymous";
  const day = new Date(row.created * 1000).toISOString().slice(0, 10);
  const does = (what, text) => {
    const it = button(text, () => change(number, what));
    it.setAttribute("aria-label", `${text} comment ${number}`);
    return it;
  };
  return make(
    "li",
    {},
    make("p", { className: "hint" }, `Comment ${number}, by ${author} on ${day}, under ${node}`),
    make("p", {}, row.body),
    make("span", { className: "row" }, does("publish", "Publish"), does("remove", "Remove")),
  );
}

/** Lists the comments that wait. */
export function listWaiting() {
  const all = waiting();
  $("waiting").replaceChildren(...all.map(item));
  if (loaded.name && !all.length) $("waiting").append(make("li", {}, "No comment of the export waits."));
}

/** Lets a comment be changed by its number. */
export function begin() {
  $("comment-form").addEventListener("submit", (event) => {
    event.preventDefault();
    attempt(() => change(Number($("comment-number").value), event.submitter?.value ?? "publish"));
  });
}
