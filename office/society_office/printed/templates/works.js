// Finds works by the pieces in find/ (work_pieces.py): what `society-office works` finds for these words as one of its arguments.
"use strict";

const BLANKS = /[\t-\r\x1c-\x20\x85\xa0\u1680\u2000-\u200a\u2028\u2029\u202f\u205f\u3000]+/u;
const DIGITS = "ABCDEFGHIJKLMNOPQRSTUVWXYZabcdefghijklmnopqrstuvwxyz0123456789-_";
const COMMON = "0123456789abcdefg";
const STAMP = document.currentScript.dataset.stamp;
// Works that are shown at once, and milliseconds without a key after which they are looked for.
const SHOWN = 20;
const PAUSE = 200;
const pieces = new Map();
const waiting = new Map();
let begin;
let asking = 0;

// A piece that has come: of another night it would not fit to the others.
function taken(stamp, name, content) {
  const it = waiting.get(name);
  if (stamp === STAMP) it?.done(content);
  else it?.failed(new Error("These pages were made anew meanwhile: load this one again."));
}

// A piece by its name, fetched once.
function piece(name) {
  if (!pieces.has(name)) {
    pieces.set(name, new Promise((done, failed) => {
      const script = document.createElement("script");
      waiting.set(name, { done, failed });
      script.src = `find/${name}.js?${STAMP}`;
      script.onload = () => script.remove();
      script.onerror = () => {
        pieces.delete(name);
        failed(new Error(`find/${name}.js could not be read: try again.`));
      };
      document.head.append(script);
    }));
  }
  return pieces.get(name);
}

// A letter whatever its case: a small one, but of Cherokee, where Unicode folds to the capital.
function folded(character) {
  const capital = character.toUpperCase();
  return /\p{Script=Cherokee}/u.test(character) ? capital : capital.toLowerCase();
}

// A character as it is looked for (work_search.py).
function told(character) {
  if (Object.hasOwn(begin.others, character)) return begin.others[character];
  for (const plainer of [character.normalize("NFKD"), folded(character)]) {
    if (plainer !== character) return [...plainer].map(told).join("");
  }
  if (/[\p{L}\p{N}]/u.test(character)) return character;
  if (/[\p{M}\p{Cf}]/u.test(character)) return "";
  return /\p{S}/u.test(character) ? ` ${character} ` : " ";
}

function plain(text) {
  return [...text].map(told).join("");
}

function wordsOf(text) {
  return plain(text).split(" ").filter(Boolean);
}

function numberOf(text) {
  return plain(text).replace(/[^\p{L}\p{N}]/gu, "");
}

// Adds the works of a text (`written`) to flags of all works.
function add(text, flags) {
  let at = 0;
  let place = 0;
  const number = () => {
    let found = 0;
    for (let unit = 1; ; unit *= 32) {
      const digit = DIGITS.indexOf(text[at]);
      at += 1;
      found += (digit % 32) * unit;
      if (digit < 32) return found;
    }
  };
  if (text[0] === ".") {
    for (let k = 1; k < text.length; k += 1) {
      for (let bits = DIGITS.indexOf(text[k]), bit = 0; bit < 6; bit += 1) if (bits & (1 << bit)) flags[(k - 1) * 6 + bit] = 1;
    }
    return;
  }
  while (at < text.length) {
    const gap = number();
    const size = gap % 2 ? number() + 2 : 1;
    place += Math.floor(gap / 2);
    flags.fill(1, place, place + size);
    place += size;
  }
}

// Flags of the works with a word, or a number, that begins so; the empty one begins none.
async function beginning(kind, word) {
  const flags = new Uint8Array(begin.works);
  if (!word) return flags;
  const begun = kind + word;
  const behind = (text) => begin.begins.filter((it) => it <= text).length;
  const first = Math.max(0, behind(begun) - 1);
  const last = behind(`${begun}\uffff`) - 1;
  if (last - first >= 2) {
    add(await piece(`b${begin.wide.indexOf(begun)}`), flags);
    return flags;
  }
  for (let k = first; k <= last; k += 1) {
    const listed = (await piece(`${k}`)).split(" ");
    for (let at = 0, before = []; at < listed.length; at += 2) {
      const [common, ...rest] = listed[at];
      before = [...before.slice(0, COMMON.indexOf(common)), ...rest];
      if (before.join("").startsWith(begun)) add(listed[at + 1], flags);
    }
  }
  return flags;
}

async function common(listed) {
  const all = await Promise.all(listed);
  return all.reduce((found, it) => found.map((flag, k) => flag & it[k]));
}

async function either(one, other) {
  const [found, more] = await Promise.all([one, other]);
  return found.map((flag, k) => flag | more[k]);
}

// The works in which what is asked for is found, in the order of their titles; without words each one is.
async function find(text) {
  const parts = text.split(BLANKS).map((it) => ({ number: numberOf(it), words: wordsOf(it) })).filter((it) => it.words.length);
  if (!parts.length) return Array.from({ length: begin.works }, (_, k) => k);
  const having = (it) => either(beginning("n", it.number), common(it.words.map((word) => beginning("w", word))));
  const flags = await either(beginning("n", numberOf(text)), common(parts.map(having)));
  return [...flags.keys()].filter((k) => flags[k]);
}

// A line of the list: a link with the title, and what else is shown of the work.
function line([title, page, number, sender, name, iswc, state]) {
  const it = document.createElement("li");
  const link = document.createElement("a");
  link.href = `works/${sender}/${page}.html`;
  link.textContent = title || "(no title)";
  it.append(link, `, ${[number, "of", sender, name].filter(Boolean).join(" ")}${iswc ? `, ${iswc}` : ""}${state ? `: ${state}` : ""}`);
  return it;
}

// Shows further works of those that were found.
async function show(found, from) {
  const own = asking;
  const some = found.slice(from, from + SHOWN);
  const shown = await Promise.all(some.map(async (it) => (await piece(`t${Math.floor(it / begin.titles)}`))[it % begin.titles]));
  if (own !== asking) return;
  const list = document.querySelector("#found");
  const more = document.querySelector("#more");
  if (!from) list.replaceChildren();
  const lines = shown.map(line);
  list.append(...lines);
  if (from) lines[0]?.querySelector("a").focus();
  const end = from + some.length;
  document.querySelector("#said").textContent = `${found.length.toLocaleString("en")} ${found.length === 1 ? "work" : "works"}`
    + (end < found.length ? `, the first ${end.toLocaleString("en")} of them below` : "");
  more.hidden = end >= found.length;
  more.onclick = () => show(found, end).catch(tell);
}

function tell(error) {
  document.querySelector("#said").textContent = error.message;
}

// Looks for what the field has, and keeps it in the address, so that one finds it again by going back.
async function look() {
  asking += 1;
  const own = asking;
  const text = document.querySelector("#words").value;
  history.replaceState(null, "", `#${encodeURIComponent(text)}`);
  try {
    begin ??= await piece("begin");
    const found = text.trim() ? await find(text) : [];
    if (own !== asking) return;
    if (text.trim()) await show(found, 0);
    else {
      document.querySelector("#found").replaceChildren();
      document.querySelector("#more").hidden = true;
      document.querySelector("#said").textContent = `${begin.works.toLocaleString("en")} works in all.`;
    }
  } catch (error) {
    tell(error);
  }
}

addEventListener("DOMContentLoaded", () => {
  const field = document.querySelector("#words");
  const asked = () => { try { return decodeURIComponent(location.hash.slice(1)); } catch { return ""; } };
  let pause;
  field.value = asked();
  field.oninput = () => { clearTimeout(pause); pause = setTimeout(look, PAUSE); };
  document.querySelector("#ask").onsubmit = (event) => { event.preventDefault(); clearTimeout(pause); look(); };
  addEventListener("hashchange", () => { field.value = asked(); look(); });
  look();
});
