// Small helpers for what stands on the page.

export const $ = (id) => document.getElementById(id);

/** An element with properties, and what stands in it. Texts stay texts: nothing is read as HTML. */
export function make(name, properties = {}, ...inner) {
  const it = document.createElement(name);
  for (const [key, value] of Object.entries(properties)) {
    if (key in it && key !== "list" && key !== "form") it[key] = value;
    else it.setAttribute(key, value);
  }
  it.append(...inner.filter((one) => one !== null));
  return it;
}

/** A button that does something. Its fault is told. */
export function button(text, does, properties = {}) {
  const it = make("button", { type: "button", ...properties }, text);
  it.addEventListener("click", () => attempt(() => does(it)));
  return it;
}

/** A control under its label. */
export function labelled(text, control, hint = "") {
  const parts = [make("label", { htmlFor: control.id }, text), control];
  if (hint) {
    const said = make("p", { className: "hint", id: `${control.id}-hint` }, hint);
    control.setAttribute("aria-describedby", said.id);
    parts.push(said);
  }
  return make("div", {}, ...parts);
}

/** Tells what was done. */
export function say(text) {
  $("trouble").textContent = "";
  $("said").textContent = text;
}

/** Tells what went wrong. */
export function complain(text) {
  $("said").textContent = "";
  $("trouble").textContent = text;
}

/** What is called where the site refused something since the session may be over. */
export const whenRefused = { look: async () => {} };

/** Does something, and tells its fault. */
export async function attempt(does) {
  try {
    return await does();
  } catch (fault) {
    complain(fault.message);
    if (fault.status === 403) await whenRefused.look();
    if (fault.status === undefined) throw fault;
    return undefined;
  }
}

/** Shows one part of the editor, and puts the focus on its head. */
export function show(part) {
  for (const section of document.querySelectorAll("section.part")) section.hidden = section.id !== part;
  for (const it of document.querySelectorAll("nav button")) {
    if (it.dataset.part === part) it.setAttribute("aria-current", "page");
    else it.removeAttribute("aria-current");
  }
  $(`${part}-head`).focus();
}

/** What was typed and isn't saved yet, in this browser: it outlives a reload, a session that ends and a site that can't be reached. */
export const drafts = {
  key: (name) => `site-editor:${name}`,
  get(name) {
    try {
      return JSON.parse(localStorage.getItem(this.key(name)));
    } catch {
      return null;
    }
  },
  keep(name, value) {
    try {
      localStorage.setItem(this.key(name), JSON.stringify(value));
    } catch {
      complain("This browser has no room left for what you typed: it stays in this window alone. Save it before you close it.");
    }
  },
  drop(name) {
    localStorage.removeItem(this.key(name));
  },
  names() {
    return Object.keys(localStorage).filter((it) => it.startsWith(this.key(""))).map((it) => it.slice(this.key("").length));
  },
};
