// What numbers, accounts and answers mean, in words.

/** A whole number with commas between thousands. */
export function units(number) {
  return String(number).replace(/\B(?=(\d{3})+$)/g, ",");
}

/** The rank of a file's number: a plain one is its own, "26-0001" has 1260001. Within a year ranks follow one another as numbers do. */
export function rankOf(number) {
  const [year, sequence] = String(number).split("-").map(Number);
  return sequence === undefined ? year : 1_000_000 + 10_000 * year + sequence;
}

/** The number of a file with this rank, as the office writes it. */
function numberAt(rank) {
  const [year, sequence] = [Math.floor(rank / 10_000) - 100, rank % 10_000];
  return year < 0 ? rank : `${String(year).padStart(2, "0")}-${String(sequence).padStart(4, "0")}`;
}

/** A file's number in words: a plain one with commas, one of a year as it is. */
export function fileText(number) {
  return typeof number === "number" ? units(number) : number;
}

/** The number behind a front. */
export function following(front) {
  return numberAt(rankOf(front) + 1);
}

/** The number of a file by its name, as in CW260001EXA_900.V22, else the number that is given. */
export function numberOf(text) {
  const [, year, sequence] = /^CW(\d\d)(\d{4})[A-Z0-9]{2,3}_\d{3}\.V2[12]$/i.exec(text) ?? [];
  return year === undefined ? Number(text) : `${year}-${sequence}`;
}

/** A part of an amount, both BigInt, with its percentage. */
export function partText(part, amount) {
  const tenths = amount ? (part * 1000n + amount / 2n) / amount : 0n;
  return `${units(part)} (${tenths / 10n}.${tenths % 10n} %)`;
}

/** The year of a file's number; a plain one has none, and comes before all years. */
function yearOf(number) {
  return typeof number === "number" ? -1 : Number(number.split("-")[0]);
}

/**
 * How a sender's held files stand by its front: `waiting` for what is `missing`, and those that are `never` applied, since the stated ends
 * lead past their year. Where all that waits is of a later year, an end may be what is missing: the office tells no ends.
 */
export function standing(front, held) {
  const waiting = held.filter((it) => yearOf(it) >= yearOf(front));
  const never = held.filter((it) => yearOf(it) < yearOf(front));
  if (!waiting.length) {
    return { waiting, never, missing: "" };
  }
  const next = fileText(following(front));
  const segment = yearOf(front) < 0 ? "its plain numbers" : `its year ${front.split("-")[0]}`;
  const isOwn = waiting.some((it) => yearOf(it) === yearOf(front));
  return { waiting, never, missing: isOwn ? next : `${next}, or the end of ${segment} has to be stated` };
}

/** Ascending numbers of files as ranges; after ten of them, how many more there are. */
export function ranges(numbers) {
  const found = [];
  for (const it of numbers.map(rankOf)) {
    const last = found.at(-1);
    if (last && last[1] === it - 1) {
      last[1] = it;
    } else {
      found.push([it, it]);
    }
  }
  const name = (rank) => fileText(numberAt(rank));
  const shown = found.slice(0, 10).map(([from, to]) => (from === to ? name(from) : `${name(from)} to ${name(to)}`));
  const left = found.slice(10).reduce((total, [from, to]) => total + to - from + 1, 0);
  return shown.join(", ") + (left ? ` and ${units(left)} more` : "");
}

/** Whose an account is: a party by its IPI name number, a party of a sender by the sender's own number, or nobody. */
export function whoText(account, senders) {
  if (account === "UNCLAIMED") {
    return "nobody";
  }
  if (account.startsWith("I")) {
    return `IPI name number ${account.slice(1)}`;
  }
  const key = account.slice(1, 12);
  const name = senders.find((it) => it.key === key)?.name ?? key;
  return `party ${account.slice(12)} of ${name}`;
}

/** Keys of senders that accounts name and the list of senders lacks. */
export function unnamedSenders(accounts, senders) {
  const keys = new Set([...accounts].filter((it) => it.startsWith("P")).map((it) => it.slice(1, 12)));
  return [...keys].filter((key) => !senders.some((it) => it.key === key)).sort();
}

/** What a status means that is no answer to a question or a sending. */
export function refusalText(status) {
  const words = {
    401: "The proxy wants a user and a password.",
    403: "The proxy does not let this user do that.",
    502: "The office does not run, or it ended while this was asked: start it, and ask again.",
    503: "The office had no memory or no disk for it, or the proxy took no more requests. Nothing changed.",
    504: "The office did not answer in time. Look whether it runs, and ask again.",
  };
  return words[status] ?? `The office answered with status ${status}.`;
}

/** A fault's words and its cure. */
function faultText(faults, kind, number) {
  const { means, cure } = faults[kind]?.[number] ?? { means: "", cure: "" };
  return `fault ${number}, ${means}. Cure: ${cure}.`;
}

/** What a taken file, return or order has come to. */
function takenText(kind, number, { status, state, front }) {
  const again = status === 200 ? "It was there already, byte for byte; nothing changed. " : "";
  if (kind === "return") {
    return `${again}Return ${units(number)} is stored.`;
  }
  if (kind === "order") {
    return `${again}Pool ${units(number)} is closed.`;
  }
  if (state === "held") {
    return `${again}File ${fileText(number)} waits: file ${fileText(following(front))} has to come first, or an end to be stated.`;
  }
  return `${again}File ${fileText(number)} is applied; all files up to ${fileText(front)} have come.`;
}

/** Why a request stands against what is there already. */
function conflictText(kind, number, { error, front, sender, pool, reporter, last, number: other }) {
  const words = {
    reused: () => `Another ${kind} stands under number ${fileText(number)}, and stays. Send this one under the next number.`,
    ended: () => `The sender stated that these numbers end with ${units(last)}. Send it under a number of a later year.`,
    cut: () => `${sender} has all files up to ${fileText(front)} only: wait for the missing ones, or cut it lower.`,
    return: () => `Return ${units(other)} of ${reporter} has not come.`,
    paid: () => `Return ${units(other)} of ${reporter} is paid by pool ${units(pool)}.`,
  };
  return words[error]?.() ?? "It stands against what is there.";
}

/** What came of sending a file, a return or an order. */
/** What an order says, where it is one: the right, the amount, the senders of its cut, and its returns; else `null`. */
export function orderOf(text) {
  try {
    const { kind = "PR", amount, cut, returns } = JSON.parse(text);
    return Number.isInteger(amount) && Array.isArray(cut) && Array.isArray(returns) ? { kind, amount, senders: cut.map((it) => it[0]), returns } : null;
  } catch {
    return null;
  }
}

/** What is to be confirmed before an order closes a pool. */
export function orderText(number, { kind, amount, senders, returns }) {
  const named = returns.map(([reporter, it]) => `${reporter}/${it}`);
  const shown = named.slice(0, 10).join(", ") + (named.length > 10 ? ` and ${units(named.length - 10)} more` : "");
  const what = named.length ? `the returns ${shown}` : "no return, so that all of it is unclaimed";
  return `Pool ${number}: ${units(amount)} units of the ${kind}, for ${what}, by the files of ${units(senders.length)} senders. A closed pool stays closed: write the amount once more, and send again.`;
}

export function answerText(kind, number, answer, faults) {
  switch (answer.status) {
    case 200:
    case 201:
    case 202:
      return takenText(kind, number, answer);
    case 404:
      return "Not taken: the number, the sender or the reporter is not one that the office takes.";
    case 409:
      return `Not taken. ${conflictText(kind, number, answer)}`;
    case 413:
      return "Not taken: it is longer than 1,048,576 bytes. Spread it over more numbers.";
    case 422: {
      const at = answer.line ? ` at line ${units(answer.line)}` : answer.row ? ` at row ${units(answer.row)}` : "";
      return `Not taken${at}: ${faultText(faults, kind, answer.fault)} The number is free still.`;
    }
    default:
      return `Not taken. ${refusalText(answer.status)}`;
  }
}
