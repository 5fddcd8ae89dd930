// The files of a sender, newest first. The office has no list of a sender's files: within a segment (the plain numbers, or those of a year)
// all numbers up to its last one are applied, and the last one of an earlier segment is found by asking for single files.
import * as office from "./office.js";

/** The number of a file as the office writes it; the plain numbers have no year. */
function named(year, number) {
  return year === undefined ? number : `${String(year).padStart(2, "0")}-${String(number).padStart(4, "0")}`;
}

/** The year, where it has one, and the number within it. */
function partsOf(front) {
  const [number, year] = String(front).split("-").map(Number).reverse();
  return { year, number };
}

async function isApplied(key, year, number) {
  return (await office.verdicts(key, named(year, number))) !== null;
}

/** The last applied number of a segment, of which this one is applied or 0: by steps that double, then by halves. */
async function lastApplied(key, year, known = 0) {
  let [low, step] = [known, 1];
  while (await isApplied(key, year, low + step)) {
    low += step;
    step *= 2;
  }
  let high = low + step;
  while (high - low > 1) {
    const middle = Math.floor((low + high) / 2);
    [low, high] = (await isApplied(key, year, middle)) ? [middle, high] : [low, middle];
  }
  return low;
}

/** The segments between two ones, the later first, of which files are applied; a segment without year is the plain numbers. */
async function segmentsBetween(key, later, earlier) {
  const first = earlier === undefined ? 0 : earlier + 1;
  const years = later === undefined ? [] : Array.from({ length: Math.max(0, later - first) }, (_, at) => later - 1 - at);
  const there = await Promise.all(years.map((year) => isApplied(key, year, 1)));
  return years.filter((_, at) => there[at]);
}

/** The rejected works of some files of a sender, each with its file, number, title and fault. */
async function rejectedIn(key, files) {
  const found = await Promise.all(files.map(async (file) => {
    const verdicts = (await office.verdicts(key, file)) ?? [];
    if (!verdicts.some((it) => it.fault)) {
      return [];
    }
    const works = await office.acknowledged(key, file);
    return verdicts.flatMap(({ fault }, at) => (fault ? [{ key, file, fault, ...works[at] }] : []));
  }));
  return found.flat();
}

/** What of a sender's applied files was looked through. A failed question leaves it as it was. */
export class Looked {
  constructor(key) {
    this.key = key;
    /** Segments from the newest on: of each, the numbers from `low` to `last` were looked through. */
    this.segments = [];
    /** Years before those, the later first, once they are known. */
    this.years = undefined;
    this.isComplete = false;
  }

  /** The file below which nothing was looked through yet; nothing where all was. */
  get lowest() {
    const { year, low } = this.segments.at(-1) ?? {};
    return this.isComplete ? undefined : named(year, low);
  }

  /** Looks through what has come since the last time, however much, and through this many older files; answers the rejected works. */
  async look(front, count) {
    const before = [this.segments.map((it) => ({ ...it })), this.years, this.isComplete];
    try {
      const files = [...(await this.newer(front)), ...(await this.older(count))];
      return await rejectedIn(this.key, files);
    } catch (error) {
      [this.segments, this.years, this.isComplete] = before;
      throw error;
    }
  }

  async newer(front) {
    const { year, number } = partsOf(front);
    const newest = this.segments[0];
    if (!newest) {
      this.segments = [{ year, low: number + 1, last: number }];
      return [];
    }
    const files = [];
    const upTo = (segment, last) => {
      for (; segment.last < last; segment.last += 1) {
        files.push(named(segment.year, segment.last + 1));
      }
    };
    if (newest.year !== year) {
      upTo(newest, await lastApplied(this.key, newest.year, newest.last));
      for (const it of [...(await segmentsBetween(this.key, year, newest.year))].reverse()) {
        this.segments.unshift({ year: it, low: 1, last: 0 });
        upTo(this.segments[0], await lastApplied(this.key, it));
      }
      this.segments.unshift({ year, low: 1, last: 0 });
    }
    upTo(this.segments[0], number);
    return files;
  }

  async older(count) {
    const files = [];
    for (;;) {
      const segment = this.segments.at(-1);
      for (; segment.low > 1 && files.length < count; segment.low -= 1) {
        files.push(named(segment.year, segment.low - 1));
      }
      if (segment.low > 1 || !(await this.addEarlier(segment))) {
        return files;
      }
    }
  }

  /** Finds the segment before this one; whether there is one. */
  async addEarlier({ year }) {
    if (!this.isComplete && year !== undefined) {
      const [earlier, ...years] = this.years ?? (await segmentsBetween(this.key, year, undefined));
      this.years = years;
      const last = await lastApplied(this.key, earlier);
      this.segments.push({ year: earlier, low: last + 1, last });
      return true;
    }
    this.isComplete = true;
    return false;
  }
}
