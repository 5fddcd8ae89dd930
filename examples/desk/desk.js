// The page for staff: what the office answers, section by section. Data reaches the page as text only, never as markup.
import { Looked } from "./files.js";
import * as office from "./office.js";
import { PAGE, Pages, addRow, clearRows, nameTables } from "./pages.js";
import { answerText, fileText, following, numberOf, orderOf, orderText, partText, rankOf, ranges, refusalText, standing, units, unnamedSenders, whoText } from "./words.js";

/** Files of each sender that are looked through for rejected works at first, and further ones at each press of the button. */
const NEWEST_FILES = 20;
const OLDER_FILES = 200;
/** How far below and above each closed pool other numbers are asked for at first, and how much further at each press of the button. */
const POOLS_AROUND = 20;
const MORE_POOLS = 200;
/** Accounts whose balance is asked for at first, the greatest first. */
const FIRST_ACCOUNTS = 100;
/** Pools after which it is said how far the asking is. */
const TOLD_EVERY = 10;
/** Senders that are named one by one where the files of several were not looked through. */
const NAMED_SENDERS = 5;

/** What the page knows: senders with their names and standings, what the nightly pages have, the words of faults, rejected works, and closed pools. */
const known = { senders: null, nightly: null, confirmed: "", faults: {}, rejected: [], pools: new Map(), poolsAsked: new Set(), poolsKept: [], around: POOLS_AROUND, asked: new Map() };

const section = (id) => document.getElementById(id);
const pages = {};

/** Says how a section stands; `kind` is `good`, `wait` or `bad`, or nothing. */
function say(place, text, kind = "") {
  const state = place.querySelector(".state");
  state.textContent = text;
  state.className = `state ${kind}`;
}

/** What went wrong, in words. */
function faultOf(error) {
  if (error instanceof office.Refused) {
    return refusalText(error.status);
  }
  return error instanceof office.Unreadable ? error.message : `The office could not be asked: ${error.message}`;
}

/** Runs what fills a section; what the office refuses is said there. Whether it went well. */
async function guarded(place, fill) {
  try {
    await fill(place);
    return true;
  } catch (error) {
    say(place, faultOf(error), "bad");
    return false;
  }
}

// Senders.
const isWaiting = (it) => it.front === null || it.waiting.length > 0;

async function askStandings() {
  const found = await Promise.all(known.senders.map(({ key }) => office.sender(key)));
  known.senders.forEach((it, at) => {
    const { front, held } = found[at] ?? { front: null, held: [] };
    Object.assign(it, { front, ...(front === null ? { waiting: [], never: [], missing: "" } : standing(front, held)) });
  });
}

function drawSenders(senders) {
  const place = section("senders");
  clearRows(place);
  for (const { key, name, front, waiting, never, missing } of senders) {
    const kind = front === null ? "bad" : waiting.length ? "wait" : "";
    addRow(place, [key, name, front === null ? "no such sender" : fileText(front), ranges(waiting), missing, ranges(never)], kind);
  }
}

async function showSenders(place) {
  if (known.senders === null) {
    return;
  }
  say(place, "Asking ..");
  await askStandings();
  // Those that somebody has to look after stand first.
  pages.senders.show([...known.senders].sort((a, b) => isWaiting(b) - isWaiting(a)));
  const [waiting, wrong] = [known.senders.filter((it) => it.waiting.length), known.senders.filter((it) => it.front === null)];
  const words = [
    waiting.length ? `${units(waiting.length)} of ${units(known.senders.length)} senders wait for a missing file or end.` : "",
    wrong.length ? `${units(wrong.length)} of senders.json are none of the office.` : "",
  ];
  const none = known.senders.length ? "Nothing waits of these senders." : "senders.json names no sender.";
  say(place, words.filter(Boolean).join(" ") || none, wrong.length ? "bad" : waiting.length ? "wait" : known.senders.length ? "good" : "");
}

/** Says which senders the pools' accounts name that the list lacks: the office has no list of its own. */
function showUnnamed() {
  const accounts = new Set([...known.pools.values()].flatMap((credits) => credits.map((it) => it.account)));
  const keys = known.senders === null ? [] : unnamedSenders(accounts, known.senders);
  const line = section("senders").querySelector(".unnamed");
  line.textContent = keys.length ? `Not in senders.json, though pools credit their parties: ${keys.slice(0, NAMED_SENDERS).join(", ")}${keys.length > NAMED_SENDERS ? " .." : ""}.` : "";
  line.className = `unnamed ${keys.length ? "wait" : ""}`;
}

// Rejected works.
const faultWords = (fault) => known.faults.transaction?.[fault] ?? { means: `fault ${fault}`, cure: "" };

/** The rejected works that a filter lets pass, by sender and fault. */
function groupsOf(works, wanted) {
  const found = new Map();
  for (const it of works) {
    const name = known.senders.find(({ key }) => key === it.key)?.name ?? "";
    const title = `${it.key} ${name}, fault ${it.fault}: ${faultWords(it.fault).means}`;
    const line = `${title} ${fileText(it.file)} ${it.file} ${it.number} ${it.title}`;
    if (line.toUpperCase().includes(wanted)) {
      found.set(title, [...(found.get(title) ?? []), it]);
    }
  }
  const newestFirst = (a, b) => rankOf(b.file) - rankOf(a.file);
  return [...found].map(([title, lines]) => ({ title, lines: lines.sort(newestFirst) })).sort((a, b) => (a.title < b.title ? -1 : 1));
}

/** Adds a group, whose works are shown when it is opened. */
function addGroup(place, { title, lines }, isOpen) {
  const group = document.getElementById("group").content.cloneNode(true).querySelector("details");
  const named = `${units(lines.length)} ${lines.length === 1 ? "work" : "works"} of ${title}`;
  nameTables(group);
  group.querySelector("summary").textContent = named;
  group.querySelector("table").setAttribute("aria-label", named);
  const { cure } = faultWords(lines[0].fault);
  group.querySelector(".cure").textContent = cure ? `Cure: ${cure}.` : "";
  const list = new Pages(group.querySelector(".pages"), `works of ${lines[0].key} with fault ${lines[0].fault}`, (part) => {
    clearRows(group);
    part.forEach(({ file, number, title: work }) => addRow(group, [fileText(file), number, work], "bad"));
  });
  group.addEventListener("toggle", () => group.open && list.show(lines), { once: true });
  group.open = isOpen;
  place.querySelector(".groups").append(group);
}

function drawGroups() {
  const place = section("rejected");
  const wanted = place.querySelector("input").value.trim().toUpperCase();
  const groups = groupsOf(known.rejected, wanted);
  const isShort = groups.reduce((total, it) => total + it.lines.length, 0) <= PAGE;
  pages.groups.isShort = isShort;
  pages.groups.show(groups);
}

/** Which files were not looked through, or nothing. */
function leftText(senders) {
  const left = senders.filter((it) => it.looked.lowest !== undefined);
  const names = left.slice(0, NAMED_SENDERS).map((it) => `${it.key} before ${fileText(it.looked.lowest)}`);
  const more = left.length > NAMED_SENDERS ? [`of ${units(left.length - NAMED_SENDERS)} other senders`] : [];
  return left.length ? `Not looked through yet: the files of ${[...names, ...more].join(", ")}.` : "";
}

let looking = Promise.resolve();

/** Looks through what has come since, and through this many older files of each sender, once earlier looks have ended. */
function showRejected(place, count) {
  const look = () => lookThrough(place, count);
  looking = looking.then(look, look);
  return looking;
}

async function lookThrough(place, count) {
  const more = place.querySelector(".more");
  more.hidden = true;
  if (known.senders === null || known.senders.some((it) => it.front === undefined)) {
    say(place, "Not looked for, since it is not known which senders there are or how they stand.", "bad");
    return;
  }
  const senders = known.senders.filter((it) => it.front !== null);
  try {
    for (const [at, it] of senders.entries()) {
      say(place, `Looking through the files of ${it.key}, sender ${units(at + 1)} of ${units(senders.length)} ..`);
      known.rejected.push(...(await it.looked.look(it.front, count)));
    }
  } catch (error) {
    more.hidden = false;
    drawGroups();
    throw error;
  }
  drawGroups();
  const left = leftText(senders);
  more.hidden = !left;
  place.querySelector("label").hidden = !known.rejected.length;
  const some = known.rejected.length ? units(known.rejected.length) : left ? "none so far" : "none";
  const all = senders.length ? "All applied files of these senders were looked through. " : "No sender, so no file was looked through. ";
  say(place, `${left ? `${left} ` : all}Rejected works${left ? " in the others" : ""}: ${some}.`, known.rejected.length || left || !senders.length ? "" : "good");
}

// A work.
async function lookUp(place, form) {
  const [key, number] = [form.sender.value, form.work.value.trim()];
  const list = place.querySelector("dl");
  list.replaceChildren();
  clearRows(place);
  const found = await office.work(key, number);
  if (!found) {
    say(place, `${key} has no work ${number} in the files that are applied.`, "wait");
    return;
  }
  say(place, "");
  const version = found.revision ? `revision ${found.revision}` : "as registered";
  const lines = {
    Title: found.title,
    "Work number": found.number,
    ISWC: found.iswc ?? "none",
    Recordings: found.isrcs.join(", ") || "none",
    Version: `${version}, by file ${fileText(found.transmission)}`,
    "The office's number": `${key.slice(2)}${String(found.ordinal).padStart(11, "0")}`,
  };
  for (const [name, value] of Object.entries(lines)) {
    list.append(Object.assign(document.createElement("dt"), { textContent: name }));
    list.append(Object.assign(document.createElement("dd"), { textContent: value }));
  }
  for (const { account, weight } of found.holders) {
    addRow(place, [`${account} (${whoText(account, known.senders)})`, `${(weight / 100).toFixed(2)} %`]);
  }
}

// Pools.
const sum = (credits) => credits.reduce((total, it) => total + it.units, 0n);

/** The numbers that are to be asked for: those from 1 on, those that staff keep, and those around each closed pool. */
function wantedPools() {
  const wanted = new Set(known.poolsKept);
  for (const it of [0, ...known.pools.keys()]) {
    for (let number = Math.max(1, it - known.around); number <= Math.min(office.MOST_POOLS, it + known.around); number += 1) {
      wanted.add(number);
    }
  }
  return [...wanted].filter((it) => !known.poolsAsked.has(it)).sort((a, b) => a - b);
}

/** Asks for pools until those around each closed one are known; says how far it is. */
async function askForPools(place) {
  for (let numbers = wantedPools(); numbers.length; numbers = wantedPools()) {
    let done = 0;
    await Promise.all(numbers.map(async (number) => {
      const found = await office.pool(number);
      known.poolsAsked.add(number);
      if (found) {
        known.pools.set(number, found);
      }
      done += 1;
      if (done % TOLD_EVERY === 0) {
        say(place, `Asking for the pools ${ranges(numbers)}: ${units(done)} of ${units(numbers.length)} ..`);
      }
    }));
  }
}

function showCredits(place, number) {
  const part = place.querySelector(".credits");
  const wanted = part.querySelector("input").value.trim().toUpperCase();
  const lines = known.pools.get(number).filter((it) => it.isrc.includes(wanted) || it.account.toUpperCase().includes(wanted));
  part.hidden = false;
  part.dataset.pool = number;
  part.querySelector("h3").textContent = `Credits of pool ${number}`;
  pages.credits.show(lines);
  say(part, `${units(lines.length)} lines, ${units(sum(lines))} units.`);
}

function drawPools(pools) {
  const place = section("pools");
  clearRows(place);
  for (const [number, credits] of pools) {
    const button = Object.assign(document.createElement("button"), { type: "button", textContent: "Credits", ariaLabel: `Credits of pool ${number}` });
    button.addEventListener("click", () => showCredits(place, number));
    const [amount, unclaimed] = [sum(credits), sum(credits.filter((it) => it.account === "UNCLAIMED"))];
    addRow(place, [String(number), units(amount), units(credits.length), partText(unclaimed, amount), button]);
  }
}

async function showPools(place) {
  const more = place.querySelector(".more");
  more.hidden = true;
  say(place, "Asking ..");
  try {
    await askForPools(place);
  } finally {
    pages.pools.show([...known.pools].sort(([a], [b]) => b - a));
    more.hidden = false;
    showUnnamed();
  }
  const asked = [...known.poolsAsked].sort((a, b) => a - b);
  say(place, `Asked for the numbers ${ranges(asked)}. Closed among them: ${units(known.pools.size) === "0" ? "none" : units(known.pools.size)}.`);
}

// Balances.
/** What the pools' credits come to, by account, the greatest first. */
function credited() {
  const found = new Map();
  for (const credits of known.pools.values()) {
    for (const it of credits) {
      found.set(it.account, (found.get(it.account) ?? 0n) + it.units);
    }
  }
  return [...found].sort(([, a], [, b]) => (a < b ? 1 : a > b ? -1 : 0));
}

function drawBalances(accounts) {
  const place = section("balances");
  clearRows(place);
  for (const [account, credits] of accounts) {
    const balance = known.asked.get(account);
    const kind = balance < credits ? "bad" : balance > credits ? "wait" : "";
    addRow(place, [account, whoText(account, known.senders ?? []), units(balance), units(credits)], kind);
  }
}

async function showBalances(place, count = FIRST_ACCOUNTS) {
  const more = place.querySelector(".more");
  more.hidden = true;
  say(place, "Asking ..");
  place.querySelector(".sums").textContent = "";
  const accounts = credited();
  known.asked = new Map();
  await Promise.all(accounts.slice(0, count).map(async ([account]) => known.asked.set(account, (await office.balance(account)) ?? 0n)));
  pages.balances.show(accounts.slice(0, count));
  const left = accounts.length - known.asked.size;
  more.hidden = left === 0;
  const these = left ? `The ${units(count)} greatest of ${units(accounts.length)}` : "All";
  say(place, `${these} accounts that the pools above credit.`);
  showSums(place, accounts);
}

/** Sets the sum of the balances beside that of the pools. */
function showSums(place, accounts) {
  const line = place.querySelector(".sums");
  const balances = [...known.asked.values()].reduce((total, it) => total + it, 0n);
  const shown = accounts.slice(0, known.asked.size).reduce((total, [, it]) => total + it, 0n);
  const all = accounts.reduce((total, [, it]) => total + it, 0n);
  const rest = known.asked.size < accounts.length ? `, of which these accounts have ${units(shown)}` : "";
  const [kind, verdict] = sumsVerdict(balances, shown);
  line.textContent = accounts.length ? `Balances ${units(balances)}; pools ${units(all)}${rest}: ${verdict}.` : "No closed pool was found.";
  line.className = `sums ${accounts.length ? kind : ""}`;
}

/** More in the accounts than in the pools that were found says that there is another pool; less would be wrong. */
function sumsVerdict(balances, shown) {
  if (balances === shown) {
    return ["good", "they agree"];
  }
  if (balances < shown) {
    return ["bad", "the accounts have less than their pools credited"];
  }
  const more = units(balances - shown);
  return ["wait", `${more} come from a pool that was closed meanwhile, or whose number was not asked for; ask for more numbers, or name it in pools.json`];
}

// Sending.
const KINDS = ["file", "return", "order"];

/** The number that comes next: a sender's first missing file if it is plain, or the pool after the last one; a return's is not known. */
function nextNumber(form) {
  const chosen = known.senders?.find((it) => it.key === form.sender.value);
  const file = following(chosen?.front ?? 0);
  const next = { file: typeof file === "number" ? file : "", return: "", order: Math.max(0, ...known.pools.keys()) + 1 };
  return next[form.kind.value];
}

/** An order over all that has come, for staff to fill in: it is no JSON before, so that nothing is closed by a draft. */
function orderDraft() {
  const cut = (known.senders ?? []).filter((it) => it.front && !String(it.front).endsWith("-0000")).map((it) => [it.key, it.front]);
  return `{"amount":AMOUNT,\n "cut":${JSON.stringify(cut)},\n "returns":[[STATION,NUMBER]]}`;
}

function showKind(form) {
  const kind = form.kind.value;
  for (const it of form.querySelectorAll(KINDS.map((name) => `.${name}`).join())) {
    it.hidden = !it.classList.contains(kind);
  }
  form.querySelector(".again").hidden = true;
  form.reporter.required = kind === "return";
  form.body.required = kind !== "order";
  form.number.pattern = { file: "[1-9][0-9]{0,5}|[Cc][Ww].*", return: "[1-9][0-9]{0,5}", order: "[1-9][0-9]{0,4}" }[kind];
  form.number.value = nextNumber(form);
  if (kind === "order" && !form.order.value) {
    form.order.value = orderDraft();
  }
}

/** Chooses the sender that a file names in its first line, where it is one of ours, and takes the file's own name where that has a number by year. */
async function chooseSender(form) {
  const head = form.body.files[0] ? await form.body.files[0].slice(3, 14).text() : "";
  if (form.kind.value === "file" && known.senders?.some((it) => it.key === head)) {
    const { name } = form.body.files[0];
    form.sender.value = head;
    form.number.value = typeof numberOf(name) === "string" ? name : nextNumber(form);
  }
}

/** Sends what the form holds; answers what the office says. */
async function sent(form) {
  const number = form.number.value.trim();
  switch (form.kind.value) {
    case "file":
      return office.putFile(form.sender.value, number, await form.body.files[0].arrayBuffer());
    case "return":
      return office.putReturn(form.reporter.value.trim(), number, await form.body.files[0].arrayBuffer());
    default:
      return office.closePool(number, form.order.value);
  }
}

/** A line for each work of a file that is applied: registered, or rejected with the fault in words. */
async function worksOf(key, number) {
  const [verdicts, works] = await Promise.all([office.verdicts(key, number), office.acknowledged(key, number)]);
  return (verdicts ?? []).map(({ fault, revision }, at) => {
    const name = `${works[at].number} ${works[at].title}`;
    if (!fault) {
      return `${name}: ${revision ? `revision ${revision}` : "registered"}`;
    }
    const { means, cure } = faultWords(fault);
    return `${name}: rejected, ${means}${cure ? `; ${cure}` : ""}`;
  });
}

/** What is sent, in one text: what was confirmed is this and nothing else. */
const toConfirm = (form) => [form.kind.value, form.reporter.value, form.number.value, form.order.value].join("\n");

/** Why an order is not sent, or asks to be confirmed, and whether the amount is asked for; nothing where it may be sent. One that is none the office refuses. */
function orderDoubt(form) {
  const order = orderOf(form.order.value);
  if (order === null) {
    return null;
  }
  if (known.nightly === null) {
    return ["bad", "Not sent: the nightly pages are not there, which have all senders of the office, so one may be missing. Close it by society-office close."];
  }
  const lacking = (known.senders ?? []).filter((it) => it.front && !order.senders.includes(it.key)).map((it) => it.key);
  if (lacking.length) {
    return ["bad", `Not sent: the cut leaves out ${lacking.slice(0, NAMED_SENDERS).join(", ")}${lacking.length > NAMED_SENDERS ? " .." : ""}. Close such an order by society-office close.`];
  }
  if (known.confirmed !== toConfirm(form)) {
    return ["wait", orderText(form.number.value.trim(), order), true];
  }
  return form.again.value.replace(/[, ]/g, "") === String(order.amount) ? null : ["bad", "Not sent: the amount is another one.", true];
}

/** The same of a return by a reporter that the office has never heard of, as a mistyped one is. */
function returnDoubt(form) {
  const reporter = form.reporter.value.trim();
  if (known.nightly === null || known.nightly.reporters.has(reporter) || known.confirmed === toConfirm(form)) {
    return null;
  }
  return ["wait", `${reporter} has never reported. A return stays under its reporter: look whether it is right, and send again.`];
}

async function send(place, form) {
  const doubt = { file: () => null, return: returnDoubt, order: orderDoubt }[form.kind.value](form);
  if (doubt) {
    place.querySelector(".outcome").replaceChildren();
    known.confirmed = toConfirm(form);
    form.querySelector(".again").hidden = !doubt[2];
    say(place, doubt[1], doubt[0]);
    return;
  }
  known.confirmed = "";
  form.again.value = "";
  form.querySelector(".again").hidden = true;
  const [kind, key, number] = [form.kind.value, form.sender.value, numberOf(form.number.value.trim())];
  const list = place.querySelector(".outcome");
  list.replaceChildren();
  say(place, "Sending ..");
  const answer = await sent(form);
  const taken = answer.status < 300;
  say(place, answerText(kind, number, answer, known.faults), taken ? (answer.state === "held" ? "wait" : "good") : "bad");
  if (kind === "file" && answer.state === "applied") {
    for (const line of await worksOf(key, number)) {
      list.append(Object.assign(document.createElement("li"), { textContent: line }));
    }
  }
  if (taken && kind === "file" && (await guarded(section("senders"), showSenders))) {
    await guarded(section("rejected"), (it) => showRejected(it, 0));
  }
  if (taken && kind === "order") {
    form.order.value = "";
    known.pools.set(number, await office.pool(number));
    known.poolsAsked.add(number);
    await guarded(section("pools"), showPools);
    await guarded(section("balances"), showBalances);
  }
  if (taken) {
    form.number.value = nextNumber(form);
  }
}

// The page.
function listenForms() {
  const [work, pools, balances, sending] = ["work", "pools", "balances", "send"].map(section);
  const onSubmit = (place, act) => {
    const form = place.querySelector("form");
    form.addEventListener("submit", async (event) => {
      event.preventDefault();
      const button = form.querySelector("button");
      button.disabled = true;
      await guarded(place, () => act(place, form));
      button.disabled = false;
    });
  };
  onSubmit(work, lookUp);
  onSubmit(sending, send);
  const form = sending.querySelector("form");
  form.addEventListener("change", ({ target }) => {
    if (target.name === "kind" || target.name === "sender") {
      showKind(form);
    } else if (target.name === "body") {
      chooseSender(form);
    }
  });
  const credits = pools.querySelector(".credits");
  credits.querySelector("input").addEventListener("input", () => showCredits(pools, Number(credits.dataset.pool)));
  const rejected = section("rejected");
  rejected.querySelector("input").addEventListener("input", drawGroups);
  rejected.querySelector(".more").addEventListener("click", () => guarded(rejected, (it) => showRejected(it, OLDER_FILES)));
  pools.querySelector(".more").addEventListener("click", async () => {
    known.around += MORE_POOLS;
    await guarded(pools, showPools);
    await guarded(balances, showBalances);
  });
  balances.querySelector(".more").addEventListener("click", () => guarded(balances, (it) => showBalances(it, Infinity)));
}

/** The pages of the lists, each with the buttons of its place. */
function makePages() {
  nameTables(document);
  const bar = (place) => section(place).querySelector(":scope > .pages");
  const credits = section("pools").querySelector(".credits");
  pages.senders = new Pages(bar("senders"), "senders", drawSenders);
  pages.groups = new Pages(bar("rejected"), "faults of senders", (part) => {
    section("rejected").querySelector(".groups").replaceChildren();
    part.forEach((it) => addGroup(section("rejected"), it, pages.groups.isShort));
  });
  pages.pools = new Pages(bar("pools"), "pools", drawPools);
  pages.balances = new Pages(bar("balances"), "accounts", drawBalances);
  pages.credits = new Pages(credits.querySelector(".pages"), "credits", (part) => {
    clearRows(credits);
    part.forEach(({ isrc, account, units: credited }) => addRow(credits, [isrc === "-" ? "no recording" : isrc, account, units(credited)]));
  });
}

function offerSenders() {
  for (const select of document.querySelectorAll("select[name=sender]")) {
    select.replaceChildren(...(known.senders ?? []).map(({ key, name }) => new Option(`${key} ${name}`, key)));
  }
}

/** Reads the senders that staff keep and the faults' words, then fills section after section. */
async function start() {
  makePages();
  listenForms();
  await guarded(section("senders"), async (place) => {
    known.faults = (await office.own("faults.json")) ?? {};
    known.nightly = await office.nightly();
    const own = await office.senders();
    const others = (known.nightly?.senders ?? []).filter((it) => !own.some(({ key }) => key === it.key));
    known.senders = [...own, ...others].map((it) => ({ ...it, waiting: [], never: [], looked: new Looked(it.key) }));
    offerSenders();
    await showSenders(place);
  });
  await guarded(section("rejected"), (it) => showRejected(it, NEWEST_FILES));
  await guarded(section("pools"), async (place) => {
    let kept = null;
    try {
      known.poolsKept = await office.poolNumbers();
    } catch (error) {
      kept = error;
    }
    await showPools(place);
    if (kept) {
      throw kept;
    }
  });
  await guarded(section("balances"), showBalances);
  showKind(section("send").querySelector("form"));
  document.documentElement.dataset.state = "ready";
}

start();
