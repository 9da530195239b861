// An export that was loaded from disk: what the site tells nobody over HTTP. Passwords and sessions in it are dropped as it is read.

/** The rows by their cells, and from which file they are. */
export const loaded = { name: null, rows: new Map() };

const DROPPED = /^"?(session:|head)/;

/** Reads the rows of a file. Throws an `Error` in words where a line is none. */
export async function load(file) {
  const rows = new Map();
  const lines = (await file.text()).split("\n");
  lines.forEach((line, at) => {
    if (line === "") return;
    const row = rowOf(line, at + 1);
    if (DROPPED.test(row.cell)) return;
    delete row.digest;
    delete row.salt;
    rows.set(row.cell, row);
  });
  if (!rows.has("site")) throw Object.assign(new Error(`${file.name} is no export: it has no row \`site\`.`), { status: 0 });
  loaded.name = file.name;
  loaded.rows = rows;
}

function rowOf(line, number) {
  try {
    const row = JSON.parse(line);
    if (typeof row.cell === "string") return row;
  } catch {
    // told below
  }
  throw Object.assign(new Error(`Line ${number} is no row.`), { status: 0 });
}

/** The rows of a kind with their names or numbers. */
export function ofKind(kind) {
  const front = `${kind}:`;
  return [...loaded.rows].filter(([cell]) => cell.startsWith(front)).map(([cell, row]) => [cell.slice(front.length), row]);
}

/** The fields of a type, in their order; none where no export is loaded. */
export function fieldsOf(type) {
  return loaded.rows.get(`type:${type}`)?.fields ?? [];
}

/** The row of a node, if the export has it in this version. */
export function nodeRow(number, vid) {
  const row = loaded.rows.get(`node:${number}`);
  return row && row.vid === vid ? row : null;
}

/** The comments that wait for approval. */
export function waiting() {
  return ofKind("comment").filter(([, row]) => !row.status);
}
