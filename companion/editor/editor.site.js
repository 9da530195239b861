// Requests to the site: what it shows as JSON, and edits with the value that guards them.

const LAST_VERSION = 4294967295; // the version of a node that no change can be made from
const WITH_GUARD = ["/user/login", "/"]; // pages on which a block of kind csrf is looked for
const WAIT = 1100; // milliseconds, where nginx says that this client asks too often

const RULES = {
  unknown: "there is no such key, or the type has no such field",
  missing: "it has to be there",
  kind: "its value is of another kind",
  many: "there are too many",
  length: "it is too short or too long",
  bytes: "it has characters that may not stand there",
  range: "it is too small or too great",
  reserved: "the site keeps this path for itself",
  twice: "a name stands there twice",
  absent: "what it names isn't there",
  cycle: "its parents lead round",
  deep: "it stands too deep",
  pair: "it doesn't go with another key",
  taken: "another has it",
  full: "there is no greater number left",
};

const CODES = {
  unreachable: "The site can't be reached. What you typed is kept.",
  csrf: "No page shows the value that guards your edits. A block of kind csrf has to stand on /user/login or the front page.",
  "no-target": "There is no such thing any more.",
  "log-full": "The server has made a million edits since it was started: it has to be started again.",
  keeper: "The store failed. Whether this edit was kept shows at the next one.",
  memory: "The server has no memory left. Nothing was changed.",
  media: "The site wants another media type.",
  "bad-json": "The site read no JSON.",
  method: "The site does nothing of this kind there.",
};

let guard = null;

/** A reply that isn't what was asked for, with what the site told. */
export class Refused extends Error {
  constructor(status, told) {
    super(inWords(status, told));
    this.status = status;
    this.told = told;
    this.code = told.code;
    this.field = told.field;
  }
}

function inWords(status, told) {
  if (told.code === "denied") return `You may not: ${told.reason}`;
  if (told.code === "rule") return `${told.field}: ${RULES[told.rule] ?? told.rule} [${told.rule}]`;
  if (told.code === "path-taken") return `${told.holder} has this path already.`;
  if (told.code === "stale") return `It is in version ${told.vid} by now.`;
  if (told.code === "count-full") return `${told.tag} was changed as often as can be counted.`;
  if (status === 429) return "Too many requests at once. Wait a little, and try again: nothing was changed.";
  if (status === 502 || status === 504) return "The site doesn't answer. Nothing is known of this edit: look at the page before you send it again.";
  return CODES[told.code] ?? `The site answered with status ${status}.`;
}

const later = (milliseconds) => new Promise((done) => setTimeout(done, milliseconds));

/** Sends a request. One that changes nothing is sent again where nginx asks to wait. */
async function ask(method, path, head = {}, body = undefined, credentials = "same-origin") {
  for (;;) {
    let reply;
    try {
      reply = await fetch(path, { method, headers: head, body, credentials, cache: "no-store" });
    } catch {
      throw new Refused(0, { code: "unreachable" });
    }
    if (reply.status !== 429 || method !== "GET") return reply;
    await later(WAIT);
  }
}

async function told(reply) {
  if (!(reply.headers.get("Content-Type") ?? "").startsWith("application/json")) return {};
  return reply.json().catch(() => ({}));
}

/** What a path below /json/ shows, and the number of the state that it is of. */
async function shown(path, credentials) {
  const reply = await ask("GET", path, {}, undefined, credentials);
  const value = await told(reply);
  if (reply.status !== 200) throw new Refused(reply.status, value);
  return { value, state: Number(reply.headers.get("X-Site-State")) };
}

/** What a path below /json/ shows. */
export async function read(path) {
  return (await shown(path)).value;
}

/** Whether whoever has no session may see a page. */
export async function isOpen(number) {
  try {
    await shown(`/json/node/${number}`, "omit");
    return true;
  } catch (fault) {
    if (fault instanceof Refused && (fault.status === 403 || fault.status === 404)) return false;
    throw fault;
  }
}

/** Makes an edit, and gives what the site says of it. A guard that was refused is looked for once more. */
export async function edit(method, path, value = undefined) {
  for (let again = true; ; again = false) {
    const head = value === undefined ? {} : { "Content-Type": "application/json" };
    if (guard) head["X-CSRF-Token"] = guard;
    const reply = await ask(method, path, head, value === undefined ? undefined : JSON.stringify(value));
    const answer = await told(reply);
    if (reply.status === 200 || reply.status === 201) return { ...answer, state: Number(reply.headers.get("X-Site-State")) };
    const fault = new Refused(reply.status, answer);
    fault.state = Number(reply.headers.get("X-Site-State"));
    if (answer.code !== "csrf" || !again || !(await findGuard())) throw fault;
  }
}

/** Looks for the value that guards the session's edits: a page shows it in a block of kind csrf, if there is a session. */
export async function findGuard() {
  guard = null;
  for (const path of WITH_GUARD) {
    const page = new DOMParser().parseFromString(await (await ask("GET", path)).text(), "text/html");
    const text = page.querySelector("p.csrf")?.textContent ?? "";
    if (/^[0-9a-f]{32}$/.test(text)) {
      guard = text;
      break;
    }
  }
  return guard !== null;
}

/** Logs in: the user's number. The cookie is the browser's, and no script sees it. */
export async function logIn(name, pass) {
  const head = guard ? { "X-CSRF-Token": guard } : {};
  const reply = await ask("POST", "/user/login", head, new URLSearchParams({ name, pass }));
  const user = /^\/user\/(\d+)$/.exec(new URL(reply.url).pathname);
  if (!reply.redirected || !user) throw new Refused(reply.status, await told(reply));
  return Number(user[1]);
}

/** Ends the session. */
export async function logOut() {
  await edit("POST", "/user/logout");
  guard = null;
}

/** The newest version of a node, by a change that can't be made; the state that it is of. Refused where the viewer may not change it. */
async function versionOf(number) {
  try {
    await edit("PATCH", `/node/${number}`, { vid: LAST_VERSION });
  } catch (fault) {
    if (fault.code === "stale") return { vid: fault.told.vid, state: fault.state };
    throw fault;
  }
  throw new Error("a change of the last version was accepted");
}

/**
 * A node as it is now: what the viewer may see of it, its version, and why it can't be changed, if so. The version is asked for first,
 * so a change that is made of it writes over nothing that wasn't seen.
 */
export async function nodeNow(number) {
  let version = { vid: null, state: 0 };
  let why = null;
  try {
    version = await versionOf(number);
  } catch (fault) {
    if (!(fault instanceof Refused) || fault.status !== 403) throw fault;
    why = fault.message;
  }
  for (;;) {
    const { value, state } = await shown(`/json/node/${number}`);
    if (state >= version.state) return { node: value, vid: version.vid, why };
  }
}

/** The pages of a listing, one after the other. */
export async function* listed(name) {
  for (let page = 0, pages = 1; page < pages; page += 1) {
    const value = await read(`/json/listing/${encodeURIComponent(name)}?page=${page}`);
    pages = value.pages;
    yield value.nodes;
  }
}
