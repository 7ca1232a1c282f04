"""What the page of `macaroond page` shows of tokens: good ones, refused ones, and those that would like to do harm."""
import datetime
import json
import re
import subprocess
import time

from check.page_tab import SECRETS, ZONE, dated, headline, parts, timed, v2

from macaroond import binary, jsontext, packets
from macaroond.base64text import encoded


def forms(page):
    """A token in each form, and with what stands around it."""
    token = parts("action = read", "time < 2100-01-01T00:00")
    v1, v2_bytes, text = packets.write(token), binary.write(token), jsontext.write(token)
    rows = [
        ("V1", encoded(v1).decode(), "V1 packets in base64"),
        ("V2", encoded(v2_bytes).decode(), "V2 binary in base64"),
        ("V2 JSON in base64", encoded(text).decode(), "V2 JSON in base64"),
        ("V2 JSON", text.decode(), "V2 JSON as it is"),
        ("hexadecimal", "hex:" + v2_bytes.hex(), "V2 binary in base64"),
        ("a field", "Authorization: Bearer " + encoded(v2_bytes).decode() + "\n", "V2 binary in base64"),
        ("a scheme", " macaroon  " + encoded(v1).decode(), "V1 packets in base64"),
    ]
    for name, given, form in rows:
        page.paste(given)
        due = [form, "http://mybank/", "alice", token.signature.hex()]
        yield name, page.texts("#says dd"), due
        yield f"{name}: caveats", page.texts("#caveats .text"), ["action = read", "time < 2100-01-01T00:00"]
        yield f"{name}: no fault", page.is_hidden("#place"), True
    yield "what was left out is told", "white space" in page.text("#note") or "macaroon" in page.text("#note"), True
    page.paste(v2(identifier=b"\xff\x00a", location=b""))
    yield "bytes that are no text", page.texts("#says dd")[1:3], ["(empty)", "\\xff\\x00a"]
    page.paste(v2(b"\xffb"))
    yield "a caveat that is no text", page.texts("#caveats .text"), ["\\xffb"]
    yield "no fact for it", page.tab.value("document.querySelector('.take')"), None
    page.click("#clear")
    yield "cleared", page.tab.until("document.getElementById('verdict').offsetParent", None), None
    page.click("#example")
    yield "the example", page.shows("#says dd", "V1 packets in base64"), "V1 packets in base64"


def caveats(page):
    """Facts, and what they do to caveats."""
    page.paste(v2("action = read", "time < 2100-01-01T00:00", "account = 17"))
    yield "without facts", page.states("fails holds fails"), "fails holds fails"
    yield "the first that fails", headline(page, "Caveat 0 is not satisfied"), "Caveat 0 is not satisfied"
    yield "as it is told", page.text("#verdict .told"), "refused 24: caveat 0 is not satisfied: action = read"
    yield "its number and the others", page.text("#verdict-words .soft").startswith("It is number 1 of 3"), True
    yield "the header", "Macaroon-Reason: 24 0" in page.text("#verdict-words"), True
    yield "how many hold", page.text("#tally"), "1 of 3 hold"
    page.enter("fact", "action = read")
    yield "a fact", page.states("holds holds fails"), "holds holds fails"
    yield "the next that fails", headline(page, "Caveat 2 is not satisfied"), "Caveat 2 is not satisfied"
    yield "as that is told", page.text("#verdict .told"), "refused 24: caveat 2 is not satisfied: account = 17"
    page.enter("fact", "Account=17")
    due = "A fact differs from it in spaces, quotes or case alone."
    yield "a fact that is near", page.shows("#caveats li:nth-child(3) .near", due), due
    page.click("#caveats li:nth-child(3) .take")
    yield "a caveat taken as a fact", page.states("holds holds holds"), "holds holds holds"
    yield "all hold", headline(page, "Every caveat holds now"), "Every caveat holds now"
    yield "the chips", page.texts("#facts code"), ["action = read", "Account=17", "account = 17"]
    page.click("#facts li:nth-child(1) button")
    yield "a fact taken away", page.states("fails holds holds"), "fails holds holds"
    yield "where the focus is", page.tab.value("document.activeElement.getAttribute('aria-label')"), "Remove fact Account=17"
    page.paste(v2("account = 17"))
    yield "facts stay for the next token", page.states("holds"), "holds"
    page.paste(v2())
    yield "no caveat", headline(page, "There is no caveat to hold"), "There is no caveat to hold"
    page.paste(v2("time < 2030-01-01"))
    due = "Begins as a bound of time does and is none: it holds only as a fact."
    yield "no bound of time", page.shows("#caveats .warning", due), due
    page.paste(v2(*["a = %d" % at for at in range(3)], "b"))
    for at in range(130):
        page.tab.value(f"addTo(facts, 'f{at}')")
    yield "too many facts", headline(page, "This can't be checked"), "This can't be checked"
    page.open()
    page.paste(v2("a"))
    for at in range(9):
        page.tab.value(f"addTo(facts, '{at}' + 'f'.repeat(8_000))")
    due = "refused: this is more than a request may have"
    yield "facts that are too long", page.shows("#verdict .told", due), due


def times(page):
    """Bounds of time, the line, and moments that are picked."""
    now = int(time.time())
    past, early, late = now - 300, 1_767_225_600, 4_102_444_800
    page.paste(v2(f"time < {timed(past)}", f"time >= {timed(early)}", f"time < {timed(late)}"))
    yield "now", page.states("fails holds holds"), "fails holds holds"
    rows = page.texts("#caveats li")
    yield "a limit that passed", f"Holds before {dated(past)}, 5 minutes ago" in rows[0], True
    yield "a lower bound", f"Holds from {dated(early)}" in rows[1], True
    yield "a limit to come", f"Holds before {dated(late)}, in 73 years" in rows[2], True
    yield "what it is now", page.texts("#caveats .times")[0], "Now it does not hold."
    yield "marks on the line", page.tab.value("document.querySelectorAll('#line .bound').length"), 3
    yield "the window on it", page.tab.value("document.querySelectorAll('#line .window').length"), 1
    places = "[...document.querySelectorAll('#line .bound')].map((it) => parseFloat(it.getAttribute('x1')))"
    found = page.tab.value(places)
    yield "in their order", (len(set(found)), found.index(min(found)), found.index(max(found))), (3, 1, 2)
    slide = "const it = document.getElementById('moment'); it.value = %s; it.dispatchEvent(new Event('input')); 0"
    page.tab.value("{" + slide % round(found[1] * 10 + 20) + "}")
    yield "a moment picked", page.states("holds holds holds"), "holds holds holds"
    yield "both are told", page.texts("#caveats .times")[0], "Now it does not hold; at the moment that is picked it holds."
    due = "Every caveat holds at the moment that is picked"
    yield "the verdict of then", headline(page, due), due
    told = page.tab.value("document.getElementById('moment').getAttribute('aria-valuetext')")
    yield "the value for a reader", told.startswith("Picked: "), True
    page.tab.value("{" + slide % round(found[0] * 10) + "}")
    yield "at a mark it is the mark's", page.states("fails holds holds"), "fails holds holds"
    yield "to the second", f"Picked: {dated(past)}" in page.text("#moment-words"), True
    yield "in the command", f"--at {timed(past)} -" in page.text("#commands"), True
    page.click("#back")
    yield "back to now", page.shows("#moment-words", page.text("#moment-words")).startswith("Now: "), True
    local = datetime.datetime.fromtimestamp(past - 1, ZONE).strftime("%Y-%m-%dT%H:%M:%S")
    exact = "const it = document.getElementById('exact'); it.value = '%s'; it.dispatchEvent(new Event('input')); 0"
    page.tab.value("{" + exact % local + "}")
    yield "an exact moment, a second before", page.states("holds holds holds"), "holds holds holds"
    page.paste(v2("time < 0000-01-01T00:00", "time >= 1969-12-31T23:59", "time < 9999-12-31T23:59:59", "time < 1900-02-29T00:00"))
    yield "the ends of time", page.states("fails holds holds fails"), "fails holds holds fails"
    due = "Begins as a bound of time does and is none: it holds only as a fact."
    yield "no bound", page.texts("#caveats .warning:not(:empty)"), [due]
    page.paste(v2("a"))
    yield "no line without bounds", page.is_hidden("#time"), True
    page.paste(v2(f"time < {timed(int(time.time()) + 3)}"))
    yield "soon over", page.states("holds"), "holds"
    yield "over by itself", page.states("fails"), "fails"


def refusals(page):
    """Each refusal with its number, and the place where reading stopped."""
    good, text = v2("a"), jsontext.write(parts("a")).decode()
    front, rest = b"\x02\x02\x01i\0", b"\0\0\x06\x20" + bytes(32)
    third = front + b"\x01\x01x\x02\x01a\x04\x01v" + rest
    placed = front + b"\x01\x01x\x02\x01a" + rest
    at = lambda number, words: f"Reading stopped at character {number}: {words}."
    json_at = lambda number: f"Reading stopped at character {number} of the JSON that the base64 stands for: JSON stops here."
    cut = f"hex:{third.hex()}"
    lower = encoded(packets.write(parts(b"\xfb\xff\xfe" * 3))).decode()
    rows = [
        ("a strange character", good[:9] + "*" + good[9:], 19, at(10, "no base64 alphabet has this character")),
        ("a line feed within", good[:9] + "\n" + good[9:], 19, at(10, "no base64 alphabet has this character")),
        ("behind a field", "Bearer " + good[:9] + "*", 19, at(10, "no base64 alphabet has this character")),
        ("a JWT", "eyJhbGciOiJub25lIn0.e30.", 19, at(20, "this looks like a JWT, and not like a macaroon")),
        ("both alphabets", "AgEO-a/a", 19, at(7, "here the letters of both base64 alphabets meet")),
        ("padding within", "AgEO=aaa", 19, at(5, "padding stands before the end")),
        ("a letter left over", "AgEOa", 19, at(5, "one letter is left over at the end: the text was cut, or lacks some")),
        ("too much padding", "AgEO==", 19, at(5, "this isn't the padding that is due")),
        ("last bits", "AgEOaB", 19, at(6, "the last letter has bits that no byte uses: the text was cut, or lacks some")),
        ("no form", "_w", 20, "The base64 is good, but its first byte is 0xff, and no form of a token begins so (V1 does with "
         "0x30, V2 with 0x02, JSON with 0x7b)."),
        ("V2 that was cut", encoded(binary.write(parts("a"))[:-3]).decode(), 20, None),
        ("V1 that was cut", encoded(packets.write(parts("a"))[:-3]).decode(), 20, None),
        ("bare V1", "0010", 20, "Reading stopped within the bytes."),
        ("JSON without an end", '{"v":2', 20, at(7, "JSON stops here")),
        ("JSON with a comma", '{"v":2,}', 20, at(8, "JSON stops here")),
        ("JSON with a wrong escape", '{"i":"a\\x"}', 20, at(8, "JSON stops here")),
        ("JSON with more behind", text + "]", 20, at(len(text) + 1, "JSON stops here")),
        ("JSON in lines", '{\n"v": 2,\n"i": nil}', 20, "Reading stopped at character 16 (in line 3): JSON stops here."),
        ("JSON in base64", encoded(b'{"v":2,!').decode(), 20, json_at(8)),
        ("JSON of no token", '{"v":2}', 20, "It is JSON, but no token: a member is missing, or has a value that no token has there."),
        ("JSON that is deep", '{"x":' + "[" * 9_000 + "]" * 9_000 + "}", 20, None),
        ("third-party", encoded(third).decode(), 21, None),
        ("third-party in hexadecimal", cut, 21, None),
        ("a caveat with a location", encoded(placed).decode(), 26, None),
        ("too many caveats", v2(*["a"] * 129), 22, None),
        ("too long", "MDAx" * 10_000, 22, None),
        ("far too long", "MDAx" * 50_000, 22, None),
    ]
    for name, token, code, words in rows:
        page.paste(token)
        yield f"{name}: what it is", headline(page, "No verify takes this"), "No verify takes this"
        yield f"{name}: its number", (page.text("#verdict .told") or "").partition(":")[0], f"refused {code}"
        yield f"{name}: it has words", bool(page.text("#place-words")), True
        if words:
            yield f"{name}: where", page.text("#place-words"), words
        yield f"{name}: no parts", page.is_hidden("#says") and page.is_hidden("#caveats"), True
    page.paste("Bearer " + good[:9] + "*" + good[9:])
    page.click("#go")
    yield "the place is selected", page.tab.value("getSelection().toString()"), "*"
    yield "and marked", page.text("#excerpt mark"), "*"
    page.paste("AgEO\u202eabc")
    yield "a mark that turns around", page.text("#excerpt mark"), "\\u{202e}"
    yield "letters of base64", lower.count("-") + lower.count("_") > 0, True


def narrowed(page):
    """The new token in each form, and the command lines."""
    token = parts("action = read")
    page.paste(encoded(packets.write(token)).decode())
    yield "none yet", page.is_hidden("#new"), True
    clipboard = "{value: {writeText: async (it) => { copies.push(it); }}}"
    page.tab.value(f"copies = []; Object.defineProperty(navigator, 'clipboard', {clipboard}); 0")
    added = ["time < 2030-01-01T00:00", "it's -> \u202e\\\n", "--x"]
    page.enter("caveat", added[0])
    page.tab.value(f"addTo(added, {json.dumps(added[1])})")
    page.enter("caveat", added[2])
    count = "document.querySelectorAll('#added li').length + document.querySelectorAll('#chain .more').length"
    yield "chips and steps of the chain", page.tab.until(count, 6), 6
    page.tab.until("document.querySelectorAll('#copies button').length", 4)
    time.sleep(0.3)
    page.tab.value("document.querySelectorAll('#copies button').forEach((it) => it.click())")
    due = parts("action = read", *added)
    texts = [encoded(write(due)).decode() for write in (packets.write, binary.write, jsontext.write)]
    yield "four forms", page.tab.value("copies"), [*texts, jsontext.write(due).decode()]
    yield "the new signature in the chain", due.signature.hex()[:16] in page.text("#chain"), True
    yield "copying is told", page.shows("#spoken", "Copied: V2 JSON as it is"), "Copied: V2 JSON as it is"
    page.tab.value("addTo(facts, \"it's a fact\")")
    page.tab.until("document.querySelectorAll('#commands button').length", 3)
    page.tab.value("copies = []; document.querySelectorAll('#commands button').forEach((it) => it.click())")
    commands = page.tab.value("copies")
    due = ["attenuate", "--caveat", added[0], "--caveat", added[1], "--caveat=" + added[2], "-"]
    yield "a command to narrow", words_of(commands[0]), due
    due = ["verify", "--keys", "FILE", "--key", "NAME", "--fact", "it's a fact", "-"]
    yield "a command to verify", words_of(commands[1]), due
    yield "they are plain", re.findall(r"[^ -~]", "".join(commands)), []
    page.enter("caveat", "time < 2030")
    due = "A caveat is no bound of time, and holds only as a fact: time < 2030"
    yield "a warning", page.shows("#caveat-warning", due), due
    page.tab.until("document.querySelector('#follow').disabled", False)
    page.click("#follow")
    yield "the new token looked at", page.tab.until("document.querySelectorAll('#caveats li').length", 5), 5
    yield "nothing is left to add", page.texts("#added li"), []
    before = int(time.time())
    page.click("[data-ends='3600']")
    page.tab.until("document.querySelectorAll('#added li').length", 1)
    bound = page.text("#added code")
    yield "an end in an hour", bound in [f"time < {timed(before + 3_600 + late)}" for late in range(5)], True
    for at in range(130):
        page.tab.value(f"added.push('c{at}')")
    page.enter("caveat", "last")
    due = "refused 22: the token passes a limit"
    yield "a limit", page.shows("#copies code", due), due
    page.paste(v2(*["c%d" % at for at in range(20)]))
    left_out = "document.getElementById('chain').innerText.includes('13 more steps')"
    yield "how many are left out", page.tab.until(left_out, True), True


def words_of(command):
    """The words that a shell makes of a command."""
    script = "macaroond() { printf '%s\\0' \"$@\"; }\n" + command
    told = subprocess.run(["bash", "-c", script], capture_output=True, text=True, env={"LC_ALL": "C.UTF-8"})
    return told.stdout.split("\0")[:-1]


def without_keys(page):
    """What asks for a key isn't there."""
    page.paste(v2("a"))
    yield "no choice of a key", page.is_hidden("#choice"), True
    yield "no mint", page.is_hidden("#mint"), True
    is_told = "document.getElementById('verdict-words').innerText.includes('--keys FILE')"
    yield "what would help", page.tab.until(is_told, True), True


def with_keys(page):
    """Verify and mint under a name."""
    page.paste(v2("action = read"))
    yield "the names", page.texts("#name option"), ["none", "bank", "shop"]
    choose = "const it = document.getElementById('name'); it.value = '%s'; it.dispatchEvent(new Event('change')); 0"
    page.tab.value("{" + choose % "bank" + "}")
    due = "A key of the name bank signed it."
    is_told = f"document.getElementById('verdict-words').innerText.includes('{due}')"
    yield "signed, and a caveat fails", page.tab.until(is_told, True), True
    yield "as it is told", page.text("#verdict .told"), "refused 24: caveat 0 is not satisfied: action = read"
    page.enter("fact", "action = read")
    yield "granted", headline(page, "Granted now"), "Granted now"
    page.tab.value("{" + choose % "shop" + "}")
    due = "The signature is not by this key"
    yield "another key", headline(page, due), due
    yield "its number", page.text("#verdict .told"), "refused 23: the key does not give the signature of the token"
    yield "in the command", "--key shop" in page.text("#commands"), True
    page.paste(v2("action = read", secret=SECRETS["shop"]))
    yield "a token of that key", headline(page, "Granted now"), "Granted now"
    mint = {"mint-name": "bank", "identifier": "bob", "location": "here", "mint-form-of": "v1-text"}
    mint["mint-caveats"] = "a\ntime < 2100-01-01T00:00\n"
    for name, value in mint.items():
        page.tab.value(f"document.getElementById('{name}').value = {json.dumps(value)}")
    page.click("#mint-form button")
    page.tab.until("document.querySelectorAll('#minted button').length", 2)
    due = encoded(packets.write(parts("a", "time < 2100-01-01T00:00", identifier=b"bob", location=b"here"))).decode()
    yield "minted", page.text("#minted code"), due
    page.click("#minted p button")
    yield "and looked at", page.shows("#says dd:nth-of-type(3)", "bob"), "bob"
    page.tab.value("document.getElementById('identifier').value = 'x'.repeat(5000)")
    page.click("#mint-form button")
    due = "refused 22: the token passes a limit"
    yield "no mint past a limit", page.shows("#minted code", due), due


def hostile(page):
    """Tokens whose texts would like to be more."""
    markup = "<img src=x onerror=hit=1><script>hit=1</script>'\"&lt;"
    page.paste(v2(markup, "<b>", identifier=markup.encode(), location=markup.encode()))
    page.enter("fact", markup)
    page.enter("caveat", markup)
    yield "caveats", page.texts("#caveats .text"), [markup, "<b>"]
    yield "identifier and location", page.texts("#says dd")[1:3], [markup, markup]
    yield "no part of it is markup", page.tab.value("document.querySelectorAll('main img, main script, main .text b').length"), 0
    yield "none of it ran", page.tab.value("typeof hit"), "undefined"
    turned = "a\u202eb\u200bc\u0007\ttwo  blanks \u00a0e\u0301\u0301\u0301\u0301"
    due = "a\\u{202e}b\\u{200b}c\\u{7}\\u{9}two\\u{20}\\u{20}blanks\\u{20}\\u{a0}e\\u{301}\\u{301}\\u{301}\\u{301}"
    page.paste(v2(turned, " x "))
    shown = page.texts("#caveats .text")
    yield "characters that don't show", shown[0].replace(" \\u{a0}", "\\u{20}\\u{a0}"), due
    yield "blanks at the ends", shown[1], "\\u{20}x\\u{20}"
    yield "they are marked", page.tab.value("document.querySelectorAll('#caveats .escape').length >= 5"), True
    yield "they are apart", page.tab.value("getComputedStyle(document.querySelector('#caveats bdi')).unicodeBidi"), "isolate"
    raw = "[...document.body.innerText].filter((it) => /[\\u202a-\\u202e\\u200b]/.test(it)).length"
    yield "none stands on the page", page.tab.value(raw), 0
    printed = "refused 24: caveat 0 is not satisfied: a\\xe2\\x80\\xaeb\\xe2\\x80\\x8bc\\x07\\x09two  blanks"
    yield "a verdict as the program prints it", page.text("#verdict .told").startswith(printed), True
    page.paste(v2(*["%03d " % at + "x" * 180 for at in range(127)], "time < 2100-01-01T00:00"))
    states = " ".join(["fails"] * 127 + ["holds"])
    yield "128 caveats", page.states(states), states
    page.paste(encoded(packets.write(parts(*[chr(97 + at) * 4_090 for at in range(5)]))).decode())
    yield "long ones", page.states(" ".join(["fails"] * 5)), " ".join(["fails"] * 5)
    yield "told in short", page.texts("#caveats .text")[0][:205], "a" * 200 + " ...\n"[:5]
    yield "the whole is there", page.tab.value("document.querySelector('#caveats details bdi').textContent.length"), 4_090
    page.tab.sized(360, 740, True)
    yield "no scrolling aside", page.tab.value("document.documentElement.scrollWidth"), 360
    page.tab.sized(1_280, 900)
    page.paste(encoded(jsontext.write(parts("\u202e\u0000\u2028"))).decode())
    yield "zero bytes", page.text("#caveats .text"), "\\u{202e}\\u{0}\\u{2028}"
    page.paste(jsontext.write(parts("\U0001f36a cookie")).decode())
    yield "what is no trick stays", page.text("#caveats .text"), "\U0001f36a cookie"
