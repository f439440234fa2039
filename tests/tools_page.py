"""The page of `gvis-causes --html` in a browser: how soon it is there, searching and folding, narrow windows, and who reads it otherwise."""
import json
import os

from browser import Browser
from common import TOP, needs, put, run
from tools_causes import gone, unmet

TOOL = os.path.join(TOP, "share/gvis-causes")
FEW = [unmet("a/a-1", "x/one"), unmet("a/b-1", "x/one", "arm a/long/path/of/a/profile/that/is/wider/than/a/narrow/window/in/one/line", level="testing"), unmet("a/b-1", "x/one:2", "mips base"),
       unmet("a/c-1", "|| ( x/two[flag] x/three )", kind="NonsolvableDepsInExp"), gone("a/d-1", "x/gone<&>\""), {"keyword": "ProfileNote", "path": "profiles/package.mask", "line": 4, "detail": "bad atom"}]
# Each is shown to a reader of the page's tree by its role and its name.
CAUSE = "x/one 2 packages, 2 reports, 2 profiles keyword or mask"
# The least contrast of any text with what is behind it, and the words that have it.
CONTRAST = """(() => {
  const channel = c => { c /= 255; return c <= .03928 ? c / 12.92 : ((c + .055) / 1.055) ** 2.4; };
  const light = color => { const [r, g, b] = color.match(/[\\d.]+/g).map(Number); return .2126 * channel(r) + .7152 * channel(g) + .0722 * channel(b); };
  const behind = e => { while (e && /^rgba\\(.*, 0\\)$|^transparent$/.test(getComputedStyle(e).backgroundColor)) e = e.parentElement; return e ? getComputedStyle(e).backgroundColor : "rgb(255, 255, 255)"; };
  let least = [99, ""], count = 0;
  for (const e of document.querySelectorAll("body *")) {
    const own = [...e.childNodes].filter(n => n.nodeType === Node.TEXT_NODE && n.data.trim()).map(n => n.data).join("");
    if (!own || !e.checkVisibility() || e.tagName === "SCRIPT") continue;
    const [a, b] = [light(getComputedStyle(e).color), light(behind(e))].sort((x, y) => y - x), ratio = (a + .05) / (b + .05);
    count++;
    if (ratio < least[0]) least = [ratio, own];
  }
  return [least[0] >= 4.5 || least, count > 20];
})()"""
FRAME = "new Promise(done => requestAnimationFrame(() => setTimeout(done)))"


def page(folder, reports):
    path = put(folder, "reports", "".join(json.dumps(report) + "\n" for report in reports))
    out = os.path.join(folder, "page.html")
    status, _, err = run([TOOL, path, "--html", out])
    if status:
        raise AssertionError(err)
    return out


def in_browser(test):
    """A case that gets a browser, which is ended in any case."""
    def case(_, folder):
        browser = Browser(folder)
        try:
            return test(browser, folder)
        finally:
            browser.close()
    case.__name__ = test.__name__
    return needs("chromium")(case)


def shown(browser):
    """What is told of the causes, how many are shown, and how many of these are open."""
    browser.value(FRAME)
    return browser.value("[shown.value, [...document.querySelectorAll('.causes > li')].filter(it => it.checkVisibility()).length, document.querySelectorAll('details[open]').length]")


def thousands_are_there_at_once(browser, folder):
    """As many reports and causes as a tree of 30,000 packages has: the page takes less than a second of the processor until it is shown, and a search too."""
    reports = [unmet(f"c/p{n % 4000}-1", f"x/y{n % 3000}", f"amd64 default/linux/amd64/23.0/p{n // 3000}") for n in range(75_000)]
    path = page(folder, reports)
    browser.ask("Performance.enable")

    def used():
        return next(it["value"] for it in browser.ask("Performance.getMetrics")["metrics"] if it["name"] == "ProcessTime")
    browser.open(path)
    before = used()
    browser.open(path)
    seconds = used() - before
    browser.value("new Promise(done => { const wait = () => next === causes.length ? done() : setTimeout(wait, 10); wait(); })")
    whole, before = shown(browser), used()
    browser.value("search.value = 'y29'; search.dispatchEvent(new Event('input'))")
    found, searched = shown(browser), used() - before
    return (seconds < 1 or seconds, searched < 1 or searched, whole, found, os.path.getsize(path) < 8_000_000), (
        True, True, ["3000 of 3000 causes", 3000, 0], ["111 of 3000 causes", 111, 0], True)


def searched_and_folded(browser, folder):
    """By words of any part, also inside; nothing is asked of a network."""
    path = page(folder, FEW)
    browser.open(path)
    got = {"": shown(browser)}
    for words in ("TWO", "a/b-1", "narrow/window", "x/one testing", 'gone<&>"', "nothing"):
        browser.value(f"search.value = {json.dumps(words)}; search.dispatchEvent(new Event('input'))")
        got[words] = shown(browser)
    browser.value("search.value = 'x/one'; search.dispatchEvent(new Event('input')); fold.click()")
    opened = shown(browser), browser.value("fold.textContent"), browser.value("document.querySelectorAll('.inside').length")
    browser.value("fold.click()")
    closed = shown(browser), browser.value("fold.textContent")
    asked = {it["request"]["url"] for it in browser.wait("Network.requestWillBeSent")}
    return (got, opened, closed, asked), (
        {"": ["5 of 5 causes", 5, 0], "TWO": ["1 of 5 causes", 1, 0], "a/b-1": ["2 of 5 causes", 2, 0], "narrow/window": ["1 of 5 causes", 1, 0], "x/one testing": ["1 of 5 causes", 1, 0],
         'gone<&>"': ["1 of 5 causes", 1, 0], "nothing": ["0 of 5 causes", 0, 0]},
        (["2 of 5 causes", 2, 2], "Close all", 2), (["2 of 5 causes", 2, 0], "Open all"), {"file://" + path})


def a_link_opens_its_cause(browser, folder):
    """In the page, where the other cause isn't shown by the search, and from outside."""
    path = page(folder, FEW)
    browser.open(path)
    browser.value("search.value = 'narrow/window'; filter(); open(causes.find(it => it.head.includes('x/one</code>')))")
    browser.value("document.querySelector('.inside a').click()")
    browser.value(FRAME)
    inside = browser.value("[document.activeElement.textContent.split(' ')[0], search.value, location.hash.slice(1) === document.activeElement.parentElement.id]")
    name = browser.value("causes.find(it => it.head.includes('package.mask')).name")
    browser.open(path, "#" + name)
    return (inside, shown(browser), browser.value("document.querySelector('details[open] .packages').textContent")), (["x/one:2", "", True], ["5 of 5 causes", 5, 1], "line 4")


def narrow_and_wide(browser, folder):
    """Nothing reaches beyond a window of 320 dots, open or not, and its text isn't smaller there."""
    browser.open(page(folder, FEW))
    got = []
    for width in (320, 1400):
        browser.size(width, 700)
        for click in ("", "fold.click()"):
            browser.value(click or "1")
            shown(browser)
            got.append(browser.value("[document.documentElement.scrollWidth <= innerWidth, Math.min(...[...document.querySelectorAll('body *')].filter(e => e.checkVisibility()).map(e => parseFloat(getComputedStyle(e).fontSize))) >= 12]"))
    return got, [[True, True]] * 4


def nodes(browser):
    """What the page is to who doesn't see it: role, name and state of each part."""
    found = []
    for node in browser.ask("Accessibility.getFullAXTree")["nodes"]:
        state = {it["name"]: it["value"].get("value") for it in node.get("properties", [])}
        if not node.get("ignored"):
            found.append((node["role"]["value"], node.get("name", {}).get("value", ""), state))
    return found


def roles(browser, folder):
    """Landmarks, the heading, the field with its label, what is told live, a list of what can be opened, and a table with its heads."""
    browser.open(page(folder, FEW))
    shown(browser)
    before = nodes(browser)
    browser.value("open(causes[0])")
    shown(browser)
    after = nodes(browser)

    def having(tree, role, *states):
        return [(name, *(state.get(it) for it in states)) for kind, name, state in tree if kind == role]
    causes = having(before, "DisclosureTriangle", "expanded")
    return (having(before, "heading", "level"), len(having(before, "banner") + having(before, "main") + having(before, "search")), having(before, "searchbox"), having(before, "button"),
            having(before, "status", "live"), [n for n, in having(before, "list")][1:], len(causes), causes[0], having(after, "DisclosureTriangle", "expanded")[0], [n for n, in having(after, "columnheader")],
            browser.value("[document.documentElement.lang, document.title, new Set([...document.querySelectorAll('[id]')].map(e => e.id)).size === document.querySelectorAll('[id]').length]")), (
        [("What is behind the reports", 1)], 3, [("Search",)], [("Open all",)], [("", "polite")], ["Causes, the one with the most packages first"], 5, (CAUSE, False), (CAUSE, True),
        ["Arch", "Profiles", "Status", "Level", "Packages in each"], ["en", "gvis: causes", True])


def contrast(browser, folder):
    """Each text has that of at least 4.5 to 1, on a light screen and on a dark one."""
    browser.open(page(folder, FEW))
    got = []
    for scheme in ("light", "dark"):
        browser.ask("Emulation.setEmulatedMedia", features=[{"name": "prefers-color-scheme", "value": scheme}])
        browser.value("causes.forEach(open)")
        shown(browser)
        got.append([browser.value("getComputedStyle(document.body).backgroundColor"), browser.value(CONTRAST)])
    return got, [["rgb(255, 255, 255)", [True, True]], ["rgb(23, 23, 26)", [True, True]]]


def keyboard(browser, folder):
    """The tabulator comes to the field, the button and each cause, what it is at is marked, and Enter opens and closes."""
    browser.open(page(folder, FEW))
    shown(browser)
    at = []
    for _ in range(4):
        browser.key("Tab")
        at.append(browser.value("[document.activeElement.id || document.activeElement.localName, getComputedStyle(document.activeElement).outlineStyle]"))
    states = []
    for _ in range(2):
        browser.key("Enter", "\r")
        states.append(shown(browser)[2])
    return (at, states, browser.value("document.activeElement.textContent.split(' ')[0]")), ([["search", "solid"], ["fold", "solid"], ["summary", "solid"], ["summary", "solid"]], [1, 0], "none")


CASES = [in_browser(test) for test in (thousands_are_there_at_once, searched_and_folded, a_link_opens_its_cause, narrow_and_wide, roles, contrast, keyboard)]
