"""How the page of `macaroond page` looks and is used: by keyboard, by a screen reader, on a phone, in the dark."""
import subprocess
import time

from check.page_tab import headline, timed, v2
from common import TOP

PICTURE_MAX = 150_000


def keyboard(page):
    """All of it by the keyboard alone, without a click."""
    tab = page.tab
    focused = "document.activeElement.id || document.activeElement.getAttribute('aria-label') || document.activeElement.innerText"

    def reach(due, most=60):
        for _ in range(most):
            if tab.value(focused) == due:
                return due
            tab.press("Tab")
        return f"not {due}"

    yield "the token", reach("token"), "token"
    tab.type(v2("action = read", f"time < {timed(int(time.time()) + 3_600)}"))
    yield "it is looked at", page.states("fails holds"), "fails holds"
    order = []
    for _ in range(30):
        tab.press("Tab")
        order.append(tab.value(focused))
    due = ["name", "caveats", "Take caveat 0 as a fact", "moment", "exact", "fact", "Add fact", "caveat", "Add caveat", "Ends in an hour"]
    yield "the order", [it for it in dict.fromkeys(order) if it in due], due
    yield "each focus shows", tab.value("getComputedStyle(document.activeElement).outlineStyle !== 'none'"), True
    tab.value("document.activeElement.blur()")
    yield "a fact's button", reach("Take caveat 0 as a fact"), "Take caveat 0 as a fact"
    tab.press(" ")
    yield "it does", page.states("holds holds"), "holds holds"
    yield "the focus moves on", tab.value(focused), "fact"
    tab.press("Tab", 2)
    yield "a chip's button", tab.value(focused), "Remove fact action = read"
    tab.press("Enter")
    yield "it takes the fact away", page.states("fails holds"), "fails holds"
    yield "the focus is kept", tab.value(focused), "fact"
    tab.type("action = read")
    tab.press("Enter")
    yield "a fact by Enter", page.states("holds holds"), "holds holds"
    yield "the slider", reach("moment"), "moment"
    tab.press("End")
    yield "at its end", page.states("holds fails"), "holds fails"
    tab.press("Home")
    yield "at its front", page.states("holds holds"), "holds holds"
    tab.press("ArrowRight", 3)
    yield "by arrows", tab.value("document.getElementById('moment').value"), "3"
    yield "back", reach("back"), "back"
    tab.press("Enter")
    yield "to now", page.text("#moment-words").startswith("Now: "), True
    yield "a caveat", reach("caveat"), "caveat"
    tab.type("b = 1")
    tab.press("Enter")
    yield "the new token", tab.until("document.querySelectorAll('#copies button').length", 4), 4
    yield "its copy", reach("Copy V1, base64"), "Copy V1, base64"
    yield "the key", reach("name"), "name"
    tab.press("ArrowDown")
    yield "chosen", headline(page, "Granted now"), "Granted now"


def named(page):
    """What a screen reader is told."""
    page.paste(v2("action = read", "time < 2100-01-01T00:00"))
    page.enter("fact", "a")
    page.enter("caveat", "b")
    page.tab.until("document.querySelectorAll('#copies button').length", 4)
    nodes = page.tab.ask("Accessibility.getFullAXTree")["nodes"]
    told = [(node["role"]["value"], node.get("name", {}).get("value", "")) for node in nodes if not node["ignored"]]
    kinds = {"button", "textbox", "slider", "combobox", "Date", "InputTime", "DateTime", "DisclosureTriangle"}
    yield "no control without a name", [it for it in told if it[0] in kinds and not it[1].strip()], []
    due = {
        ("textbox", "Token"), ("textbox", "Facts"), ("textbox", "Caveat to add"), ("slider", "Moment"),
        ("combobox", "Verify with the key"), ("list", "Facts"), ("list", "Caveats to add"), ("list", "Caveats"),
        ("list", "The chain of HMACs"), ("heading", "Verdict"),
    }
    yield "names", sorted(due - set(told)), []
    found = page.tab.value("['main', 'h1'].map((it) => document.querySelectorAll(it).length)")
    yield "one main, one heading of the first rank", found, [1, 1]
    verdict = "['role', 'aria-live'].map((it) => document.getElementById('verdict-words').getAttribute(it))"
    yield "the verdict is told", page.tab.value(verdict), ["status", "polite"]
    yield "the language", page.tab.value("document.documentElement.lang"), "en"
    yield "states are words too", page.texts("#caveats .badge"), ["\u2717 fails", "\u2713 holds"]
    watch = "changes = 0; new MutationObserver(() => changes += 1).observe(%s, {childList: true, subtree: true}); check(); 0"
    page.tab.value(watch % "document.getElementById('verdict-words')")
    time.sleep(0.5)
    yield "nothing is told twice", page.tab.value("changes"), 0


# The worst contrast on the page: a text's colour beside the colour behind it, and where.
CONTRAST = """(() => {
  const parts = (color) => color.match(/[\\d.]+/g).map(Number);
  const light = (rgb) => rgb.slice(0, 3).map((it) => it / 255).map((it) => it <= 0.04045 ? it / 12.92 : ((it + 0.055) / 1.055) ** 2.4)
    .reduce((sum, it, at) => sum + it * [0.2126, 0.7152, 0.0722][at], 0);
  const behind = (it) => {
    for (; it; it = it.parentElement) {
      const color = parts(getComputedStyle(it).backgroundColor);
      if (color.length < 4 || color[3] === 1) return color;
    }
    return [255, 255, 255];
  };
  const rows = [];
  for (const it of document.querySelectorAll("body *")) {
    const box = it.getBoundingClientRect();
    const owns = [...it.childNodes].some((node) => node.nodeType === 3 && node.data.trim()) || it.value;
    if (!owns || !box.width || !box.height || it.closest("[hidden], noscript, .aside") || it.disabled) continue;
    const style = getComputedStyle(it);
    const [a, b] = [light(parts(it instanceof SVGElement ? style.fill : style.color)), light(behind(it))];
    rows.push([(Math.max(a, b) + 0.05) / (Math.min(a, b) + 0.05), it.tagName + "." + (it.getAttribute("class") || it.id)]);
  }
  rows.sort((a, b) => a[0] - b[0]);
  return [rows.length, rows[0][0], rows[0][1]];
})()"""


# What goes past the right edge, and which controls are lower than 24 pixels.
OUTSIDE = """[...document.querySelectorAll("main *")]
  .filter((it) => it.getBoundingClientRect().right > innerWidth + 1 && !it.closest(".short, svg"))
  .map((it) => it.tagName + it.id)"""
SMALL = """[...document.querySelectorAll("main button, main select, main input")]
  .filter((it) => it.offsetParent && it.getBoundingClientRect().height < 24).map((it) => it.id || it.innerText)"""


def looks(page):
    """Contrast in light and dark; a phone's width; two columns where there is room."""
    shown = [
        ("holds and fails", v2("action = read", "time < 2100-01-01T00:00", "time < 2030-01-01", "\u202e")),
        ("refused", v2("a")[:9] + "*"),
        ("nothing", ""),
    ]
    for scheme in ("light", "dark"):
        page.tab.colored(scheme)
        for name, token in shown:
            page.paste(token)
            if name.startswith("holds"):
                page.enter("fact", "action = read")
                page.enter("caveat", "time < 2030")
                page.tab.until("document.querySelectorAll('#copies button').length", 4)
            page.focus("token")
            time.sleep(0.2)
            count, worst, where = page.tab.value(CONTRAST)
            yield f"{scheme}, {name}: {count} texts, the worst {worst:.2f} at {where}", worst >= 4.5, True
        ground = page.tab.value("getComputedStyle(document.body).backgroundColor.match(/\\d+/g).map(Number)[0]")
        yield f"{scheme}: the ground", ground > 200 if scheme == "light" else ground < 50, True
    page.tab.colored("light")
    for width in (320, 360, 412, 768, 1_024, 1_280, 1_920):
        page.tab.sized(width, 800, width < 500)
        for name, token in shown:
            page.paste(token)
            page.tab.until("document.querySelectorAll('#copies button').length >= 4 || document.body.className !== ''", True)
            yield f"{name} in {width} pixels", page.tab.value("document.documentElement.scrollWidth <= innerWidth"), True
            yield f"{name} in {width} pixels: nothing is cut", page.tab.value(OUTSIDE), []
        page.paste(shown[0][1])
        lefts = "new Set([...document.querySelectorAll('.column')].map((it) => Math.round(it.getBoundingClientRect().left))).size"
        yield f"columns in {width} pixels", page.tab.value(lefts), 2 if width >= 1_024 else 1
    page.tab.sized(360, 740, True)
    page.paste(shown[0][1])
    yield "each control is large enough for a finger", page.tab.value(SMALL), []
    page.tab.sized(1_280, 900)


def reduced(picture):
    """A PNG with few bytes: the same picture in 256 colours. It asks for Debian's pngquant."""
    return subprocess.run(["pngquant", "-"], input=picture, stdout=subprocess.PIPE, check=True).stdout


def pictures(page):
    """The page in light and in dark, as docs/ has it."""
    now = int(time.time())
    token = v2("action = read", "account = 17", f"time < {timed(now + 7_200)}", f"time >= {timed(now - 86_400)}",
               identifier=b"alice@example.org", location=b"https://api.example.org/")
    for scheme in ("light", "dark"):
        page.tab.colored(scheme)
        page.open()
        page.tab.sized(1_280, 900)
        page.paste(token)
        page.enter("fact", "action = read")
        page.states("holds fails holds holds")
        page.enter("caveat", "ip = 192.0.2.7")
        page.tab.until("document.querySelectorAll('#copies button').length", 4)
        page.tab.value("document.activeElement.blur(); scrollTo(0, 0)")
        time.sleep(0.3)
        page.tab.sized(1_280, 1_500)
        content = reduced(page.tab.picture())
        (TOP / "docs" / f"page-{scheme}.png").write_bytes(content)
        yield f"{scheme}: {len(content)} bytes are few", len(content) < PICTURE_MAX, True
