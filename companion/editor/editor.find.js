// Finding pages: in a listing of the site, by their numbers, or in the export that was loaded.

import { $, attempt, button, make } from "./editor.page.js";
import { listed, read, Refused } from "./editor.site.js";
import { loaded, ofKind } from "./editor.export.js";
import { openNode } from "./editor.node.js";

let running = null; // what is being looked for; another search, or Stop, ends it

async function* ofListing(name) {
  try {
    for await (const nodes of listed(name)) for (const { nid, title } of nodes) yield { nid, title };
  } catch (fault) {
    if (fault.code === "no-target") fault.message = "There is no listing of this name.";
    throw fault;
  }
}

async function* ofNumbers(first, last) {
  for (let nid = first; nid <= last; nid += 1) {
    try {
      const node = await read(`/json/node/${nid}`);
      yield { nid, title: node.title, node };
    } catch (fault) {
      if (!(fault instanceof Refused) || (fault.status !== 404 && fault.status !== 403)) throw fault;
      yield { nid };
    }
  }
}

async function* ofExport() {
  for (const [nid, row] of ofKind("node")) yield { nid: Number(nid), title: row.title, mark: row.status ? "" : " (draft)" };
}

function source() {
  const kind = $("source").value;
  if (kind === "numbers") return ofNumbers(Number($("first").value), Number($("last").value));
  if (kind === "export") return ofExport();
  localStorage.setItem("site-editor-listing", $("listing").value);
  return ofListing($("listing").value);
}

const has = (text, sought) => text.toLocaleLowerCase().includes(sought);

/** Whether a page is one that is looked for. A page that the viewer may not see isn't. */
async function isSought({ nid, title, node }, sought, inTexts) {
  if (title === undefined) return false;
  if (sought === "" || has(title, sought)) return true;
  if (!inTexts) return false;
  try {
    return Object.values((node ?? (await read(`/json/node/${nid}`))).fields).some((text) => has(text, sought));
  } catch (fault) {
    if (fault instanceof Refused && (fault.status === 403 || fault.status === 404)) return false;
    throw fault;
  }
}

async function search() {
  const mine = (running = {});
  const sought = $("sought").value.trim().toLocaleLowerCase();
  const inTexts = $("in-texts").checked;
  const seen = new Set();
  $("found").replaceChildren();
  $("stop").hidden = false;
  let found = 0;
  try {
    for await (const page of source()) {
      if (running !== mine) return;
      if (seen.has(page.nid)) continue;
      seen.add(page.nid);
      if (await isSought(page, sought, inTexts)) {
        found += 1;
        $("found").append(make("li", {}, button(`${page.title}${page.mark ?? ""}`, () => openNode(page.nid)), ` page ${page.nid}`));
      }
      $("found-head").textContent = `${found} found, ${seen.size} looked at ...`;
    }
    if (running === mine) $("found-head").textContent = `${found} found, ${seen.size} looked at.`;
  } finally {
    if (running === mine) $("stop").hidden = true;
  }
}

/** Offers the names of listings that are known. */
export function offerListings() {
  $("listings").replaceChildren(...ofKind("listing").map(([name, row]) => make("option", { value: name }, row.title)));
  if (loaded.name && $("listing").value === "frontpage" && !loaded.rows.has("listing:frontpage")) $("listing").value = ofKind("listing")[0]?.[0] ?? "";
}

/** Lets pages be opened and looked for. */
export function begin() {
  $("listing").value = localStorage.getItem("site-editor-listing") ?? "frontpage";
  $("source").addEventListener("change", () => {
    for (const it of document.querySelectorAll("[data-source]")) it.hidden = it.dataset.source !== $("source").value;
  });
  $("open-form").addEventListener("submit", (event) => {
    event.preventDefault();
    attempt(() => openNode(Number($("open-number").value)));
  });
  $("list-form").addEventListener("submit", (event) => {
    event.preventDefault();
    attempt(search);
  });
  $("stop").addEventListener("click", () => {
    running = null;
    $("stop").hidden = true;
  });
}
