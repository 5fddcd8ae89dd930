// The office's requests but the statement of an end, and what their answers say. Nothing here knows the page.

/** The most requests under way at once: a proxy in front limits how many connections and requests a second one browser may have. */
const MOST_AT_ONCE = 4;
/** Bytes of an acknowledgement's lines, each with its line end: the header and the group's header, then one line for each work. */
const ACK_HEAD = 133;
const ACK_LINE = 161;
const TITLE = [49, 109];
const WORK_NUMBER = [109, 129];

/** The greatest pool number. */
export const MOST_POOLS = 99_999;

let underWay = 0;
const waiting = [];

/** Waits for a turn, then sends a request; answers the status and the bytes of the answer. */
async function request(path, options = {}) {
  if (underWay >= MOST_AT_ONCE) {
    await new Promise((go) => waiting.push(go));
  } else {
    underWay += 1;
  }
  try {
    const answer = await fetch(new URL(path, location.origin), { cache: "no-store", ...options });
    return { status: answer.status, bytes: new Uint8Array(await answer.arrayBuffer()) };
  } finally {
    const next = waiting.shift();
    if (next) {
      next();
    } else {
      underWay -= 1;
    }
  }
}

/** An answer that is no answer to the question: its status, and its bytes as text. */
export class Refused extends Error {
  constructor(status, bytes) {
    super(`status ${status}`);
    this.status = status;
    this.text = text(bytes);
  }
}

/** A path of the office, each part escaped. */
function path(...parts) {
  return `/v1/${parts.map((part) => encodeURIComponent(part)).join("/")}`;
}

function text(bytes) {
  return new TextDecoder().decode(bytes);
}

/** The bytes of an answer, `null` for 404; any other status is thrown as `Refused`. */
async function question(...parts) {
  const { status, bytes } = await request(path(...parts));
  if (status === 404) {
    return null;
  }
  if (status !== 200) {
    throw new Refused(status, bytes);
  }
  return bytes;
}

async function json(...parts) {
  const bytes = await question(...parts);
  return bytes && JSON.parse(text(bytes));
}

/** How a sender stands: `front`, the number up to which all have come, and `held`, the numbers that wait. A number by year is a text. */
export function sender(key) {
  return json("senders", key);
}

/** What became of each registration and revision of a file: `ordinal` and `revision`, or `fault`; `null` where the file is not applied. */
export function verdicts(key, number) {
  return json("senders", key, "verdicts", number);
}

/** A work at the front, or `null`. Its title is decoded; `holders` have `account` and `weight` in hundredths of a percent. */
export async function work(key, number) {
  const found = await json("senders", key, "works", number);
  return found && { ...found, title: unescaped(found.title) };
}

/** A title as it is written in the file: the office escapes each byte that is no printable ASCII. */
function unescaped(title) {
  const bytes = [];
  for (let at = 0; at < title.length; at += 1) {
    if (title[at] === "%") {
      bytes.push(parseInt(title.slice(at + 1, at + 3), 16));
      at += 2;
    } else {
      bytes.push(title.charCodeAt(at));
    }
  }
  return field(Uint8Array.from(bytes));
}

/** A field of a file: UTF-8 where it is that, else a letter for each byte; without blanks at its end. */
function field(bytes) {
  try {
    return new TextDecoder("utf-8", { fatal: true }).decode(bytes).trimEnd();
  } catch {
    return new TextDecoder("latin1").decode(bytes).trimEnd();
  }
}

/** The number and the title of each work of a file, in its order, by the file's acknowledgement; `null` where the file is not applied. */
export async function acknowledged(key, number) {
  const bytes = await question("senders", key, "acks", number);
  if (!bytes) {
    return null;
  }
  const works = [];
  for (let at = ACK_HEAD; text(bytes.subarray(at, at + 3)) === "ACK"; at += ACK_LINE) {
    const cut = ([from, to]) => field(bytes.subarray(at + from, at + to));
    works.push({ number: cut(WORK_NUMBER), title: cut(TITLE) });
  }
  return works;
}

/** A closed pool's credits, each `isrc`, `account` and `units` (a BigInt), or `null` where it is not closed. */
export async function pool(number) {
  const bytes = await question("pools", number);
  return bytes && records(text(bytes)).slice(1).map(([isrc, account, units]) => ({ isrc, account, units: BigInt(units) }));
}

/** The records of a CSV: fields may be quoted, their quotation marks doubled. */
export function records(csv) {
  const found = [];
  let record = [];
  for (const [, quoted, plain, end] of csv.matchAll(/(?:"((?:[^"]|"")*)"|([^",\n]*))(,|\n|$)/g)) {
    record.push(quoted === undefined ? plain : quoted.replaceAll('""', '"'));
    if (end === ",") {
      continue;
    }
    if (record.length > 1 || record[0]) {
      found.push(record);
    }
    record = [];
  }
  return found;
}

/** The units that an account has come to over all pools, as a BigInt. */
export async function balance(account) {
  const bytes = await question("accounts", account);
  // A balance may be too great for a JSON number of a browser.
  return bytes && BigInt(/"units":(\d+)\}$/.exec(text(bytes))[1]);
}

/** Sends a body; answers the status and, where the answer is JSON, what it says. */
async function put(body, ...parts) {
  const { status, bytes } = await request(path(...parts), { method: "PUT", body });
  try {
    return { status, ...JSON.parse(text(bytes)) };
  } catch {
    return { status };
  }
}

/** Sends a file of works under a plain number, or under its name by year. */
export function putFile(key, number, body) {
  return put(body, "senders", key, /^cw/i.test(number) ? "files" : "transmissions", number);
}

export function putReturn(reporter, number, body) {
  return put(body, "returns", reporter, number);
}

export function closePool(number, order) {
  return put(order, "pools", number);
}

/** A file of the page's own folder that does not say what it should. */
export class Unreadable extends Error {}

/** A file of the page's own folder, as JSON; `null` where there is none. */
export async function own(name) {
  const { status, bytes } = await request(new URL(name, location.origin + location.pathname).pathname);
  if (status === 404) {
    return null;
  }
  if (status !== 200) {
    throw new Refused(status, bytes);
  }
  try {
    return JSON.parse(text(bytes));
  } catch (error) {
    throw new Unreadable(`${name} can't be read: it is no JSON (${error.message}).`);
  }
}

/** What the nightly pages have of the office: all its `senders`, each `key` and `name`, and all `reporters`; `null` where there are no pages. */
export async function nightly() {
  const found = await own("/site/desk.json");
  return found && { senders: found.senders.map(([key, name]) => ({ key, name })), reporters: new Set(found.reporters) };
}

/** The senders that staff keep in senders.json, each `key` and `name`. */
export async function senders() {
  const found = await own("senders.json");
  const isSender = (it) => Array.isArray(it) && it.length === 2 && /^[0-9A-Z]{11}$/.test(it[0]) && typeof it[1] === "string";
  if (!Array.isArray(found) || !found.every(isSender)) {
    const wrong = Array.isArray(found) ? `; this one is none: ${JSON.stringify(found.find((it) => !isSender(it)))}` : "";
    throw new Unreadable(`senders.json has to be a list of pairs, each of a sender's eleven characters and its name${wrong}.`);
  }
  const twice = found.find(([key], at) => found.findIndex((it) => it[0] === key) !== at);
  if (twice) {
    throw new Unreadable(`senders.json has ${twice[0]} twice.`);
  }
  return found.map(([key, name]) => ({ key, name }));
}

/** The pool numbers that staff keep in pools.json, single ones and pairs of the first and the last; none where there is no such file. */
export async function poolNumbers() {
  const found = (await own("pools.json")) ?? [];
  const isNumber = (it) => Number.isInteger(it) && it >= 1 && it <= MOST_POOLS;
  const isKept = (it) => isNumber(it) || (Array.isArray(it) && it.length === 2 && it.every(isNumber) && it[0] <= it[1]);
  if (!Array.isArray(found) || !found.every(isKept)) {
    throw new Unreadable(`pools.json has to be a list of pool numbers, or pairs of the first and the last one.`);
  }
  return found.flatMap((it) => (isNumber(it) ? [it] : Array.from({ length: it[1] - it[0] + 1 }, (_, at) => it[0] + at)));
}
