#!/usr/bin/python3
"""Tries the nightly pages (`society-office site`) and statements in headless Chromium, out of a folder, without a server.

The search of works.html is asked what `society-office works` is asked, in offices with letters of many kinds, and has to find the same
works in the same order; every character has to be looked for as work_search.py has it; and no word that is typed may fetch more than
200,000 bytes. Each page is looked at with 1,200, 800 and 420 pixels: no word is broken, nothing is wider than the screen, texts can be
read, fields and tables are named. A work is found, and its page is opened, by keys alone. Ends with status 1 where anything differs.

`--copy FILE` also measures the search over the works of that copy.
"""
import datetime
import json
import os
import pathlib
import random
import sys
import tempfile
import unicodedata

import common
import conftest
import quarter
import texts
from browser import Browser
from desk_access import ACCESS
from society_office.book.copy import open_copy
from society_office.closings.pool_ties import Ties
from society_office.credits import statement_output
from society_office.credits.spans import Span
from society_office.decided.decisions import Decisions
from society_office.formats.pool_names import PoolName
from society_office.formats.return_names import entry
from society_office.printed.site import write_site
from society_office.works import work_index, work_search

# What is typed over a large copy.
TYPED = (
    "s so song number 7 77 777 7777 77777 w w5 writer at atabc atabc0012345 pb pb0000 pb000000012 i i0 i0000100 example e m music x zz 1"
)
WIDTHS, MOST_BYTES, QUESTIONS = (1200, 800, 420), 200_000, 80
CASES = ("search 0", "search 1", "search 2", "search 3", "pages", "large")
# What the desk's tables and sections have besides, which a browser does not need for a page without scripts.
ASIDE = ("a table without role", "a cell without role", "no name")
WRONG: list[str] = []
# Words that stand on two lines though they have neither a hyphen nor a slash, and what is wider than the screen.
SHAPE = r"""(() => {
  const wrong = [], range = document.createRange();
  const walker = document.createTreeWalker(document.body, NodeFilter.SHOW_TEXT);
  while (walker.nextNode()) {
    const it = walker.currentNode;
    if (it.parentElement.closest(".skip, noscript, svg") || !it.parentElement.getClientRects().length) continue;
    for (const word of it.data.matchAll(/[^\s\-\/]+/gu)) {
      range.setStart(it, word.index);
      range.setEnd(it, word.index + word[0].length);
      const lines = new Set([...range.getClientRects()].filter((one) => one.width > 0.5).map((one) => Math.round(one.top)));
      if (lines.size > 1) wrong.push(`a broken word: ${word[0]}`);
    }
  }
  if (document.documentElement.scrollWidth > innerWidth) wrong.push(`${document.documentElement.scrollWidth} pixels wide`);
  return wrong;
})()"""


def check(what: str, is_right: bool, told: object = "") -> None:
    if not is_right:
        WRONG.append(what)
        print(f"WRONG {what} {told}", flush=True)


def opened(browser: Browser, path: pathlib.Path, rest: str = "") -> None:
    browser.call("Page.navigate", url="about:blank")
    browser.call("Page.navigate", url=path.resolve().as_uri() + rest)
    browser.wait_for("document.readyState === 'complete' && location.protocol === 'file:'")


def made(copy: pathlib.Path, folder: pathlib.Path, known: Decisions | None = None) -> work_index.Index:
    with open_copy(copy) as opened_copy:
        write_site(opened_copy, folder, known, lambda _: None)
        return work_index.Index(work_index.made(opened_copy))


def found_by_page(browser: Browser, text: str) -> list[tuple[str, str]]:
    """The works that the page finds, as it would show them."""
    asked = f"""find({json.dumps(text)}).then((found) => Promise.all(found.map(async (it) =>
      (await piece(`t${{Math.floor(it / begin.titles)}}`))[it % begin.titles])))"""
    return [(it[3], it[2]) for it in browser.value(asked)]


def check_search(browser: Browser, program: str, folder: pathlib.Path, number: int) -> None:
    """The page finds in an office what the command finds."""
    office, rng = texts.with_texts(number), random.Random(f"page {number}")
    copy = conftest.made(program, office, folder)
    index = made(copy, folder / "site")
    opened(browser, folder / "site/works.html")
    browser.wait_for("document.querySelector('#said').textContent.includes('in all')")
    questions = [*texts.HOSTILE, *(" ".join(texts.question(rng, office)) for _ in range(QUESTIONS))]
    for text in (it for it in questions if it.strip() and it.encode(errors="replace").decode() == it):
        wanted = [(it[0], it[1]) for it in index.places(index.find(work_search.asked([text])))]
        found = found_by_page(browser, text)
        check(f"office {number}: {text[:60]!r}", found == wanted, f"{found[:3]} {wanted[:3]}")


def check_characters(browser: Browser) -> None:
    """Each character is looked for as work_search.py has it, but for those that only one of both knows."""
    asked = "Array.from({ length: 0x110000 }, (_, k) => k >= 0xd800 && k < 0xe000 ? null : told(String.fromCodePoint(k)))"
    found = browser.value(f"({asked}).map((it) => it === null ? '' : it)")
    differ = [k for k, it in enumerate(found) if not 0xD800 <= k < 0xE000 and it != work_search.told(chr(k))]
    named = [k for k in differ if unicodedata.category(chr(k)) != "Cn"]
    print(f"characters: {len(differ)} differ, {len(named)} of them named by Python's Unicode: {' '.join(map(hex, named[:12]))}")
    check("characters", not named)


def look_at(browser: Browser, path: pathlib.Path, name: str, pictures: pathlib.Path | None) -> None:
    for width in WIDTHS:
        browser.size(width)
        opened(browser, path)
        if path.name == "works.html":
            browser.wait_for("document.querySelector('#said').textContent")
        for told in browser.value(SHAPE):
            check(f"{name} at {width} pixels", False, told)
        # (a statement has nothing before its text that one could skip)
        aside = (*ASIDE, "the first stop is no skip link") if name.startswith("statements/") else ASIDE
        for told in browser.value(ACCESS):
            check(f"{name} at {width} pixels", told.startswith(aside), told)
        if pictures:
            browser.picture(pictures / f"{name.replace('/', '-')}-{width}.png")


def press(browser: Browser, key: str, code: str | None = None, text: str = "") -> None:
    for kind in ("keyDown", "keyUp"):
        browser.call(
            "Input.dispatchKeyEvent",
            type=kind,
            key=key,
            code=code or key,
            text=text if kind == "keyDown" else "",
            windowsVirtualKeyCode={"Tab": 9, "Enter": 13}.get(key, 0),
        )


def check_keys(browser: Browser, site: pathlib.Path) -> None:
    """A work is found and opened without a mouse."""
    browser.size(1200)
    opened(browser, site / "index.html")
    for _ in range(20):
        press(browser, "Tab")
        if browser.value("document.activeElement.textContent") == "Works":
            break
    press(browser, "Enter", text="\r")
    browser.wait_for("location.pathname.endsWith('/works.html') && document.querySelector('#said')?.textContent")
    for _ in range(20):
        press(browser, "Tab")
        if browser.value("document.activeElement.id") == "words":
            break
    browser.call("Input.insertText", text="first anna")
    browser.wait_for("document.querySelectorAll('#found a').length === 1")
    press(browser, "Tab")
    check("keys: the first work behind the field", browser.value("document.activeElement.textContent") == "FIRST SONG (LIVE)")
    seen = browser.value("getComputedStyle(document.activeElement).outlineStyle")
    check("keys: the focus is seen", seen != "none", seen)
    press(browser, "Enter", text="\r")
    browser.wait_for("location.pathname.endsWith('/A1.html')")
    browser.value("history.back()")
    browser.wait_for("location.pathname.endsWith('/works.html') && document.querySelectorAll('#found a').length === 1")
    check("keys: back to what was found", browser.value("document.querySelector('#words').value") == "first anna")


def check_quarter(browser: Browser, program: str, folder: pathlib.Path, pictures: pathlib.Path | None) -> None:
    """Each page of an office of a quarter, and a statement."""
    copy = conftest.made(program, quarter.OFFICE, folder)
    days = datetime.date(2026, 1, 1), datetime.date(2026, 12, 31)
    names = {pool: PoolName("Plays of all stations in the first quarter", *days) for pool in quarter.OFFICE.pools}
    void = [entry(it, "void.txt") for it in ("RADIO1/1", "TV1/2")]
    made(copy, folder / "site", Decisions(folder, void, [], names, [], {}))
    with open_copy(copy) as it:
        notes = Ties(it, void).all_notes()
        statement_output.write_each(it, names, notes, Span(), folder / "statements", False)
    for page in sorted((folder / "site").rglob("*.html")) + sorted((folder / "statements").rglob("*.html")):
        look_at(browser, page, str(page.relative_to(folder)), pictures)
    check_keys(browser, folder / "site")


def measure(browser: Browser, copy: pathlib.Path, folder: pathlib.Path) -> None:
    """What is fetched for a word, over a large copy; `folder` has its pages where they are made already."""
    with open_copy(copy) as it:
        index = work_index.of(it)[0]
    most: dict[str, int] = {}
    for text in TYPED.split():
        opened(browser, folder / "works.html", f"#{text}")
        browser.wait_for("document.querySelector('#said').textContent.includes('work')", 60)
        names = [f"find/{it}.js" for it in browser.value("[...pieces.keys()]")]
        most[text] = sum((folder / it).stat().st_size for it in ("works.html", "works.js", "office.css", *names))
        check(
            f"{text}: as the command",
            browser.value(f"find({json.dumps(text)}).then((it) => it.length)") == len(index.find(work_search.asked([text]))),
        )
    worst = max(most, key=lambda it: most[it])
    print(f"most is fetched for {worst!r}: {most[worst]:,} bytes; {most}")
    check("what is fetched", most[worst] < MOST_BYTES)


def main() -> None:
    options = common.parser(__doc__)
    options.add_argument("--copy", type=pathlib.Path, help="a large copy")
    options.add_argument("--site", type=pathlib.Path, help="its pages")
    options.add_argument("--pictures", type=pathlib.Path, help="a folder for pictures of the pages")
    common.add_cases(options, CASES)
    given = options.parse_args()
    program = os.path.abspath(given.program)
    if given.pictures:
        given.pictures.mkdir(exist_ok=True)
    with tempfile.TemporaryDirectory(ignore_cleanup_errors=True) as name:
        folder = pathlib.Path(name)
        browser = Browser(folder)
        try:
            for name in (it for it in CASES if given.case in it):
                (folder / name).mkdir()
                if name == "pages":
                    check_quarter(browser, program, folder / name, given.pictures)
                elif name == "large" and given.copy:
                    measure(browser, given.copy, given.site)
                elif name.startswith("search"):
                    check_search(browser, program, folder / name, int(name[-1]))
                    check_characters(browser)
            check("errors of the pages", not browser.events, str(browser.events[:2]))
        finally:
            browser.close()
    print("all is as wanted" if not WRONG else f"{len(WRONG)} are not as wanted")
    sys.exit(1 if WRONG else 0)


if __name__ == "__main__":
    main()
