"""What a page needs for those who see little, use keys alone or have it read to them, checked in the browser by rules of WCAG 2.1 A and AA.

Debian has no axe-core, so the points are written out here: language and title, ids, headings, names of sections and fields, headers of
tables, the skip link, contrast of texts (4.5:1, large ones 3:1) and of the borders of what a hand has to find (3:1), size of targets.
"""
import collections

from browser import Browser

ACCESS = r"""(() => {
  const wrong = [];
  const say = (what, it) => wrong.push(`${what}: ${it?.outerHTML?.slice(0, 120) ?? ""}`);
  const all = (selector) => [...document.querySelectorAll(selector)];
  const isShown = (it) => it.getClientRects().length > 0 && getComputedStyle(it).visibility === "visible";
  const channel = (it) => ((it /= 255) <= 0.03928 ? it / 12.92 : ((it + 0.055) / 1.055) ** 2.4);
  const parsed = (colour) => (colour.match(/[\d.]+/g) ?? []).map(Number);
  const light = ([r, g, b]) => 0.2126 * channel(r) + 0.7152 * channel(g) + 0.0722 * channel(b);
  const contrast = (a, b) => { const [high, low] = [light(a), light(b)].sort((x, y) => y - x); return (high + 0.05) / (low + 0.05); };
  const ground = (it) => {
    for (; it; it = it.parentElement) {
      const [r, g, b, a = 1] = parsed(getComputedStyle(it).backgroundColor);
      if (a === 1) return [r, g, b];
    }
    return [255, 255, 255];
  };

  if (!document.documentElement.lang) say("no language");
  if (!document.title) say("no title");
  const ids = all("[id]").map((it) => it.id);
  if (new Set(ids).size !== ids.length) say("an id stands twice");
  if (all("h1").length !== 1) say("not one h1");
  let level = 1;
  for (const it of all("h1, h2, h3, h4").filter(isShown)) {
    if (Number(it.tagName[1]) > level + 1) say("a heading jumps", it);
    level = Number(it.tagName[1]);
  }
  for (const it of all("section, nav, form")) {
    const name = it.getAttribute("aria-label") ?? document.getElementById(it.getAttribute("aria-labelledby"))?.textContent;
    if (!name) say("no name", it);
  }
  for (const it of all("[aria-labelledby]")) if (!document.getElementById(it.getAttribute("aria-labelledby"))) say("named by nothing", it);
  for (const it of all("th")) if (!["col", "row"].includes(it.scope) || !it.textContent) say("th without scope or text", it);
  for (const it of all("table")) if (it.getAttribute("role") !== "table" || !it.tHead) say("a table without role or head", it);
  for (const it of all("tbody td")) if (it.getAttribute("role") !== "cell") say("a cell without role", it);
  for (const it of all("input, select, textarea")) if (!it.labels?.length) say("a field without label", it);

  const first = all("a[href], button, input, select, textarea, [tabindex]").filter((it) => it.tabIndex >= 0)[0];
  const target = first?.getAttribute("href")?.startsWith("#") && document.querySelector(first.getAttribute("href"));
  if (!target || target.tagName !== "MAIN" || target.tabIndex === undefined) say("the first stop is no skip link to main", first);
  else {
    first.focus();
    const box = first.getBoundingClientRect();
    if (box.left < 0 || box.top < 0 || box.width < 24) say("the skip link is not seen when it has the focus", first);
    first.blur();
  }
  if (all("[tabindex]").some((it) => it.tabIndex > 0)) say("an order of stops of its own");

  const walker = document.createTreeWalker(document.body, NodeFilter.SHOW_TEXT);
  const seen = new Set();
  while (walker.nextNode()) {
    const it = walker.currentNode.parentElement;
    if (!walker.currentNode.data.trim() || seen.has(it) || !isShown(it) || it.closest("[disabled], .skip, template, noscript")) continue;
    seen.add(it);
    const style = getComputedStyle(it);
    const size = parseFloat(style.fontSize);
    const needed = size >= 24 || (size >= 18.66 && style.fontWeight >= 700) ? 3 : 4.5;
    const found = contrast(parsed(style.color), ground(it));
    if (found < needed) say(`text of contrast ${found.toFixed(2)}`, it);
  }
  for (const it of all("input:not([type=radio]):not([type=file]), select, textarea, button").filter((it) => isShown(it) && !it.disabled)) {
    const style = getComputedStyle(it);
    const behind = ground(it.parentElement);
    const found = Math.max(contrast(parsed(style.borderTopColor), behind), contrast(ground(it), behind));
    if (found < 3) say(`a border of contrast ${found.toFixed(2)}`, it);
    if (it.getBoundingClientRect().height < 24) say("lower than 24 pixels", it);
  }
  return wrong;
})()"""

# What has to have a name, by its role in the tree that is read aloud.
NAMED = {"button", "textbox", "combobox", "link", "radio", "region", "table", "form", "navigation", "DisclosureTriangle"}


def named_buttons(browser: Browser) -> tuple[list[str], list[str]]:
    """By the browser's own tree of what is read aloud: the names that several buttons have, and the roles of what has none."""
    nodes = browser.call("Accessibility.getFullAXTree")["nodes"]
    found = [(it["role"]["value"], it.get("name", {}).get("value", "")) for it in nodes if not it.get("ignored") and "role" in it]
    counts = collections.Counter(name for role, name in found if role == "button")
    return [name for name, count in counts.items() if count > 1], [role for role, name in found if role in NAMED and not name]
