// The page of `macaroond page`. What it says of a token, the daemon says: this only asks, and shows the
// answers as text. It keeps no token, and asks nobody but the daemon that it was opened for.
"use strict";

const $ = (id) => document.getElementById(id);
const TOKEN_MAX = 32768;
const BODY_MAX = 65536;
const EXAMPLE = "MDAxY2xvY2F0aW9uIGh0dHA6Ly9teWJhbmsvCjAwMjZpZGVudGlmaWVyIHdlIHVzZWQgb3VyIHNlY3JldCBrZXkKMDAxZGNpZCB" +
  "hY2NvdW50ID0gMzczNTkyODU1OQowMDIwY2lkIHRpbWUgPCAyMTAwLTAxLTAxVDAwOjAwCjAwMmZzaWduYXR1cmUg3j9iiy8--xzYtOSUB3x6xj9" +
  "UA9t8IbCL-vIZPb29w94K";

// What is looked at: the text that was pasted, the token in it, what an inspect and the last checks said.
let pasted = { text: "", start: 0, token: "" };
let said = null;
let bounds = [];
let facts = [];
let added = [];
let made = null;
let names = [];
// The moment that was picked, in seconds since 1970; null stands for now.
let picked = null;
let asOf = now();
let line = null;
// Which look, check and narrowing is the last one: answers to earlier ones are dropped.
const turns = { look: 0, check: 0, narrow: 0 };

function now() {
  return Math.floor(Date.now() / 1000);
}

// ---- The daemon

// The address that the daemon printed has two secrets behind its #: what this page shows with each call, and what the
// daemon shows this page. They are kept for this tab alone, so that it can be loaded again, and leave the address.
const KEPT = "secrets";
const SECRETS = /^#([0-9a-f]{32})([0-9a-f]{32})$/;
let secrets = takenSecrets();
// Why nothing is asked any more.
let gone = "";

function takenSecrets() {
  const opened = location.hash;
  if (SECRETS.test(opened)) sessionStorage.setItem(KEPT, opened);
  if (opened) history.replaceState(null, "", location.pathname);
  const [, ours, daemons] = SECRETS.exec(sessionStorage.getItem(KEPT)) || [];
  return { ours, daemons };
}

async function fetched(path, how) {
  const headers = { ...how.headers, "Macaroond-Page": secrets.ours };
  const reply = await fetch(path, { cache: "no-store", credentials: "omit", redirect: "error", ...how, headers });
  return { status: reply.status, text: await reply.text() };
}

// Whether the daemon answers that this page was opened for. Once it has ended, another program may have its port: that
// one doesn't know the daemon's secret, and gets no call.
async function isHere() {
  if (gone) return false;
  try {
    const { text } = await fetched("/here", {});
    if (text === secrets.daemons) return true;
  } catch {
    // No connection: it has ended.
  }
  end("macaroond has ended, and this page asks nothing more. Start it again, and open the address that it prints.");
  return false;
}

// Asks nothing more, and forgets the secrets.
function end(words) {
  if (gone) return;
  gone = words;
  secrets = {};
  sessionStorage.removeItem(KEPT);
  look();
}

// The status and the object of an answer.
async function ask(path, body) {
  const how = {};
  if (body) {
    Object.assign(how, { method: "POST", headers: { "Content-Type": "application/json" }, body: JSON.stringify(body) });
    if (utf8(how.body).length > BODY_MAX) {
      return { status: 413, told: { reason: "this is more than a request may have" } };
    }
  }
  if (!await isHere()) return { status: 0, told: {} };
  try {
    const { status, text } = await fetched(path, how);
    return { status, told: text ? JSON.parse(text) : {} };
  } catch {
    await isHere();
    return { status: 0, told: {} };
  }
}

// A refusal in the daemon's words.
function refusal({ status, told }) {
  if (told.code) return "refused " + told.code + ": " + told.reason;
  if (told.reason) return "refused: " + told.reason;
  if (status === 0) return gone || "macaroond didn't answer.";
  return "refused " + status;
}

// ---- Texts

function make(kind, name, ...parts) {
  const made = document.createElement(kind);
  if (name) made.className = name;
  made.append(...parts);
  return made;
}

function soft(...parts) {
  return make("p", "soft", ...parts);
}

function button(words, label, act, name = "quiet") {
  const made = make("button", name, words);
  made.type = "button";
  if (label) made.setAttribute("aria-label", label);
  made.onclick = act;
  return made;
}

const HIDDEN = /[\p{C}\p{Zl}\p{Zp}]|(?! )\p{Zs}|\p{M}{3,}/u;
const ODD = new RegExp("(" + HIDDEN.source + "|^ +| +$|  +)", "u");

// A text as it is, apart from what stands around it. Characters that don't show, or that turn others
// around, stand as marked escapes; so do spaces that one doesn't see.
function shown(text, most = Infinity) {
  const front = text.length > most ? [...text].slice(0, most).join("") : text;
  const parts = front.split(ODD).map((part, at) => at % 2 ? make("span", "escape", escaped(part)) : part);
  const whole = make("bdi", "", ...parts);
  if (text === "") whole.append(make("span", "soft", "(empty)"));
  if (front !== text) whole.append(" ...");
  return whole;
}

function escaped(text) {
  return [...text].map((it) => "\\u{" + it.codePointAt(0).toString(16) + "}").join("");
}

// Each byte: a printable one of ASCII as it is, another and each of `others` as `odd` makes it.
function spelled(bytes, odd, others = "") {
  return [...bytes].map((it) => {
    const letter = String.fromCharCode(it);
    return it > 31 && it < 127 && !others.includes(letter) ? letter : odd("\\x" + hex([it]));
  });
}

// What an inspect tells as a text, or as bytes where it is none.
function field(told, text, bytes) {
  if (told[text] !== undefined) return { text: told[text], bytes: utf8(told[text]) };
  return { text: null, bytes: bytesOf(told[bytes]) };
}

function shownField({ text, bytes }, most = Infinity) {
  if (text !== null) return shown(text, most);
  const parts = spelled(bytes.slice(0, most), (it) => make("span", "escape", it));
  return make("bdi", "", ...parts, bytes.length > most ? " ..." : "");
}

// As the command line prints bytes of a token.
function printed(bytes) {
  return spelled(bytes, (it) => it, "\\").join("");
}

function utf8(text) {
  return new TextEncoder().encode(text);
}

function hex(bytes) {
  return [...bytes].map((it) => it.toString(16).padStart(2, "0")).join("");
}

function bytesOf(base64) {
  const text = atob(base64.replace(/-/g, "+").replace(/_/g, "/"));
  return Uint8Array.from(text, (it) => it.charCodeAt(0));
}

function base64Of(bytes) {
  const text = btoa(Array.from(bytes, (it) => String.fromCharCode(it)).join(""));
  return text.replace(/[+]/g, "-").replace(/[/]/g, "_").replace(/=/g, "");
}

function counted(count, one) {
  return count.toLocaleString("en") + " " + one + (count === 1 ? "" : "s");
}

// ---- Time

const dates = new Intl.DateTimeFormat("en-GB", { weekday: "short", year: "numeric", month: "short", day: "numeric",
  hour: "2-digit", minute: "2-digit", second: "2-digit", timeZoneName: "short" });
const spans = new Intl.RelativeTimeFormat("en", { numeric: "always" });
const UNITS = [["year", 31556952], ["month", 2629746], ["day", 86400], ["hour", 3600], ["minute", 60], ["second", 1]];

function dated(seconds) {
  const date = new Date(seconds * 1000);
  const told = make("time", "", dates.format(date));
  told.dateTime = date.toISOString();
  return told;
}

// How far a moment is from now: `in 3 hours`, `119 minutes ago`.
function away(seconds) {
  const from = seconds - now();
  const [unit, size] = UNITS.find(([, size]) => Math.abs(from) >= 2 * size) || UNITS[5];
  return spans.format(Math.trunc(from / size), unit);
}

// The second of a bound of time, and whether it is an upper one; null where the text is none. This draws the line of
// time alone: whether a caveat holds, the daemon says.
function boundOf(text) {
  const found = /^time (<|>=) (\d{4})-(\d\d)-(\d\d)T(\d\d):(\d\d)(?::(\d\d))?Z?$/.exec(text || "");
  if (!found) return null;
  const [year, month, day, hour, minute, second] = found.slice(2).map((it) => Number(it || 0));
  const date = new Date(0);
  date.setUTCFullYear(year, month - 1, day);
  if (date.getUTCMonth() !== month - 1 || date.getUTCDate() !== day) return null;
  if (hour > 23 || minute > 59 || second > 59) return null;
  return { isEnd: found[1] === "<", at: date.getTime() / 1000 + hour * 3600 + minute * 60 + second };
}

function seemsBound(text) {
  return /^time ?[<>]/.test(text) && !boundOf(text);
}

// A moment as the command line takes it; past the year 9999 that is its number.
function timed(seconds) {
  const text = new Date(seconds * 1000).toISOString().replace(".000Z", "Z");
  return text.length > 20 ? String(seconds) : text;
}

// ---- The token that was pasted

// The token without what often stands around it, where it begins, and what was left out.
function tokenIn(text) {
  const front = /^\s*(?:authorization\s*:\s*)?(?:(?:bearer|macaroon)\s+)?/i.exec(text)[0];
  let token = text.slice(front.length).trimEnd();
  const left = [];
  if (front.trim()) left.push(front.trim());
  if (front !== front.trimEnd() && !front.trim() || text !== text.trimEnd()) left.push("white space");
  if (/^hex:(?:[0-9a-f]{2})+$/i.test(token)) {
    token = base64Of(token.slice(4).match(/../g).map((it) => parseInt(it, 16)));
    return { text, token, left };
  }
  return { text, token, start: front.length, left };
}

function isBare(token) {
  return "0{\u0002".includes(token[0]);
}

async function look() {
  const turn = ++turns.look;
  ++turns.check;
  ++turns.narrow;
  said = null;
  pasted = tokenIn($("token").value);
  $("clear").hidden = pasted.text === "";
  $("example").hidden = !$("clear").hidden;
  const size = utf8(pasted.token).length;
  const reply = gone ? { status: 0, told: {} } : pasted.token === "" ? null : size > TOKEN_MAX
    ? { status: 400, told: { code: 22, reason: "the token passes a limit" } }
    : await ask("/inspect", { token: pasted.token });
  if (turn !== turns.look) return;
  said = reply && reply.status === 200 ? reply.told : null;
  document.body.className = !reply ? "empty" : said ? "" : "refused";
  $("note").replaceChildren();
  if (reply) {
    $("note").append(counted(size, "byte") + (isBare(pasted.token) ? "" : " of base64") + ". ");
    if (pasted.left.length) $("note").append("Left out around it: ", shown(pasted.left.join(", ")));
  }
  showPlace(reply && !said ? reply.told.code : 0);
  bounds = said ? said.caveats.map((it) => boundOf(it.text)) : [];
  picked = null;
  if (said) {
    showParts();
    showCaveats();
    check();
    narrow();
  } else {
    showRefusal(reply);
  }
}

function showParts() {
  const form = { "v1-text": "V1 packets", "v2-text": "V2 binary", "v2-json": "V2 JSON" }[said.form];
  const rows = [
    ["Form", form + (isBare(pasted.token) ? " as it is" : " in base64")],
    ["Location", shown(said.location)],
    ["Identifier", long(field(said, "identifier", "identifier64"))],
    ["Signature", make("code", "", said.signature)],
  ];
  $("says").replaceChildren(...rows.flatMap(([name, value]) => [make("dt", "", name), make("dd", "", value)]));
}

// A field in short, and behind it the whole.
function long(told) {
  const size = told.text === null ? told.bytes.length : told.text.length;
  if (size <= 300) return make("span", "mono", shownField(told));
  const whole = make("details", "", make("summary", "", "All " + counted(told.bytes.length, "byte")), shownField(told));
  return make("span", "mono", shownField(told, 200), whole);
}

// ---- Where reading stopped

// The first character that isn't base64 text's, and why.
function base64Stop(text) {
  const end = text.indexOf("=") < 0 ? text.length : text.indexOf("=");
  const [strange, plain, safe] = [/[^\w+/=-]/, /[+/]/, /[-_]/].map((it) => text.search(it));
  if (/^eyJ[\w-]*[.][\w-]+[.]/.test(text)) return [strange, "this looks like a JWT, and not like a macaroon"];
  if (strange >= 0) return [strange, "no base64 alphabet has this character"];
  if (plain >= 0 && safe >= 0) return [Math.max(plain, safe), "here the letters of both base64 alphabets meet"];
  if (/=[^=]/.test(text)) return [end, "padding stands before the end"];
  if (end % 4 === 1) return [end - 1, "one letter is left over at the end: the text was cut, or lacks some"];
  if (end < text.length && text.length - end !== (4 - end % 4) % 4) return [end, "this isn't the padding that is due"];
  return [end - 1, "the last letter has bits that no byte uses: the text was cut, or lacks some"];
}

// The place where a text stops to be JSON; -1 where it is JSON.
function jsonStop(text) {
  let at = 0;
  const take = (pattern) => {
    pattern.lastIndex = at;
    const found = pattern.test(text);
    if (found) at = pattern.lastIndex;
    return found;
  };
  const blanks = () => take(/[ \t\n\r]*/y);
  const need = (pattern) => {
    if (!take(pattern)) throw at;
    blanks();
  };
  const string = () => {
    if (!take(/"/y)) throw at;
    take(/(?:[^"\\\u0000-\u001f]|\\(?:["\\/bfnrt]|u[0-9a-fA-F]{4}))*/y);
    need(/"/y);
  };
  const listed = (end, member) => {
    blanks();
    if (!take(end)) {
      do {
        blanks();
        member();
      } while (take(/,/y));
      need(end);
    }
    blanks();
  };
  const value = () => {
    if (take(/[{]/y)) listed(/[}]/y, () => { string(); need(/:/y); value(); });
    else if (take(/\[/y)) listed(/\]/y, value);
    else if (text[at] === '"') string();
    else need(/-?(?:0|[1-9]\d*)(?:[.]\d+)?(?:[eE][+-]?\d+)?|true|false|null/y);
  };
  try {
    value();
    return at === text.length ? -1 : at;
  } catch (stopped) {
    return typeof stopped === "number" ? stopped : -1;
  }
}

// Where reading stopped: words, and the text and place where there is one.
function stopOf(code) {
  const { token } = pasted;
  if (code === 19 && !isBare(token)) {
    const [at, words] = base64Stop(token);
    return { text: token, at, words, inPasted: true };
  }
  if (code !== 20) return null;
  let [text, within] = [token, ""];
  if (!isBare(token)) {
    const bytes = bytesOf(token);
    const form = { 48: "V1 packets", 2: "V2 binary", 123: "" }[bytes[0]];
    if (form === undefined) return { words: "The base64 is good, but its first byte is 0x" + hex([bytes[0]]) +
      ", and no form of a token begins so (V1 does with 0x30, V2 with 0x02, JSON with 0x7b)." };
    if (form) return { words: "The base64 is good. Reading stopped within the " + counted(bytes.length, "byte") +
      " that it stands for, which begin as " + form + " do." };
    text = new TextDecoder().decode(bytes);
    within = " of the JSON that the base64 stands for";
  }
  if (text[0] !== "{") return { words: "Reading stopped within the bytes." };
  const at = jsonStop(text);
  if (at >= 0) return { text, at, within, inPasted: !within, words: "JSON stops here" };
  return { words: "It is JSON, but no token: a member is missing, or has a value that no token has there." };
}

const HINTS = {
  21: "One of its caveats is to be discharged by a third party. macaroond takes first-party caveats alone.",
  22: "A token has at most 32,768 bytes as it is written, 128 caveats of 4,096 bytes each, an identifier of 4,096 " +
    "bytes and a location of 1,024.",
  26: "One of its caveats names a location, as those for a third party do. macaroond takes none with one.",
};

function showPlace(code) {
  const stop = stopOf(code) || (HINTS[code] ? { words: HINTS[code] } : null);
  $("place").hidden = !stop;
  const hasPlace = Boolean(stop) && stop.at !== undefined;
  $("go").hidden = !hasPlace || !stop.inPasted || pasted.start === undefined;
  $("excerpt").hidden = !hasPlace;
  $("place-words").textContent = stop ? stop.words : "";
  if (!hasPlace) return;
  const { text, at, within = "", words } = stop;
  const before = text.slice(0, at);
  const char = at < text.length ? String.fromCodePoint(text.codePointAt(at)) : "";
  const row = before.split("\n").length;
  const where = "character " + ([...before].length + 1) + (row > 1 ? " (in line " + row + ")" : "");
  $("place-words").textContent = "Reading stopped at " + where + within + ": " + words + ".";
  const mark = make("mark", "", char === "" ? "the end" : /[\p{C}\p{Z}]/u.test(char) ? escaped(char) : char);
  const front = [...before].slice(-20).join("");
  const rest = text.slice(at + char.length);
  $("excerpt").replaceChildren(before.length > front.length ? "... " : "", front ? shown(front) : "", mark,
    rest ? shown(rest, 20) : "");
  $("go").onclick = () => {
    $("token").focus();
    $("token").setSelectionRange(pasted.start + at, pasted.start + at + Math.max(char.length, 1));
  };
}

// ---- Caveats, and whether they hold

function showCaveats() {
  const rows = said.caveats.map((told, at) => {
    const caveat = field(told, "text", "bytes64");
    const row = make("li", "", make("span", "number", String(at)), make("span", "text", long(caveat)),
      make("span", "badge"));
    if (bounds[at]) {
      row.append(soft(bounds[at].isEnd ? "Holds before " : "Holds from ", dated(bounds[at].at), make("span", "away")),
        make("p", "soft times"));
    }
    if (seemsBound(caveat.text)) {
      row.append(make("p", "warning", "Begins as a bound of time does and is none: it holds only as a fact."));
    }
    if (caveat.text === null) {
      row.append(soft("Its bytes are no UTF-8: no fact that is written in JSON equals it."));
    } else if (!bounds[at]) {
      row.append(make("p", "warning near"), button("Take it as a fact", "Take caveat " + at + " as a fact", () => {
        addTo(facts, caveat.text);
        $("fact").focus();
      }, "quiet take"));
    }
    return row;
  });
  $("caveats").replaceChildren(...rows);
  $("caveats").hidden = rows.length === 0;
  $("time").hidden = !bounds.some(Boolean);
}

async function check() {
  if (!said) return;
  const turn = ++turns.check;
  asOf = now();
  showLine();
  showWords();
  const { token } = pasted;
  const name = $("name").value;
  const moment = picked === null ? asOf : picked;
  const [atNow, atPicked, verified] = await Promise.all([
    ask("/check", { token, facts, moment: asOf }),
    picked === null ? null : ask("/check", { token, facts, moment }),
    name ? ask("/verify/" + encodeURIComponent(name), { token, facts, moment }) : null,
  ]);
  if (turn !== turns.check) return;
  const then = atPicked || atNow;
  for (const reply of [atNow, then]) {
    if (reply.status !== 200) return showRefusal(reply, true);
  }
  showHolding(atNow.told.holds, then.told.holds);
  showVerdict(then.told.holds, name, verified);
}

function showHolding(atNow, then) {
  const alike = (text) => text.toLowerCase().replace(/[\s"']/g, "");
  const rows = $("caveats").children;
  said.caveats.forEach(({ text }, at) => {
    const row = rows[at];
    row.dataset.state = then[at] ? "holds" : "fails";
    row.querySelector(".badge").textContent = then[at] ? "\u2713 holds" : "\u2717 fails";
    if (bounds[at]) {
      row.querySelector(".away").textContent = ", " + away(bounds[at].at);
      const tell = (holds) => holds ? "holds" : "does not hold";
      row.querySelector(".times").textContent = "Now it " + tell(atNow[at]) +
        (picked === null ? "." : "; at the moment that is picked it " + tell(then[at]) + ".");
    }
    if (text === undefined || bounds[at]) return;
    row.querySelector(".take").hidden = then[at] || facts.includes(text);
    const near = !then[at] && facts.some((fact) => alike(fact) === alike(text));
    row.querySelector(".near").textContent = near ? "A fact differs from it in spaces, quotes or case alone." : "";
  });
  const fails = then.filter((it) => !it).length;
  $("tally").textContent = then.length === 0 ? "It has none: whoever holds it may do all that its key allows."
    : then.length - fails + " of " + then.length + " hold";
}

// ---- The verdict

function tellVerdict(state, headline, ...parts) {
  const words = $("verdict-words");
  const next = make("div", "", make("p", "headline", headline), ...parts);
  $("verdict").dataset.state = state;
  // A reader is told what is new, and nothing twice.
  if (words.firstChild && words.firstChild.isEqualNode(next)) return;
  words.replaceChildren(next);
}

function told(...parts) {
  return make("p", "told", make("code", "", ...parts));
}

function showRefusal(reply, isCheck) {
  $("choice").hidden = true;
  if (!reply) return tellVerdict("none", "No token yet");
  if (reply.status === 0) return tellVerdict("bad", refusal(reply));
  if (isCheck || !reply.told.code) return tellVerdict("bad", "This can't be checked", told(refusal(reply)));
  tellVerdict("bad", "No verify takes this", told(refusal(reply)),
    soft("A gateway that asks over HTTP is answered 401, whatever the facts and the moment are."));
}

function showVerdict(holds, name, verified) {
  $("choice").hidden = names.length === 0;
  const first = holds.indexOf(false);
  const when = picked === null ? " now" : " at the moment that is picked";
  const key = make("b", "", shown(name));
  const header = make("code", "", "Macaroon-Reason: 24 " + first);
  const { granted, code } = verified ? verified.told : {};
  const help = names.length ? " Choose a key to see whether it did." : " To see it, start the page with --keys FILE.";
  if (granted) {
    return tellVerdict("good", "Granted" + when, told("granted"),
      soft("A key of the name ", key, " signed it, and every caveat holds. Over HTTP that is 200."));
  }
  if (code === 23) {
    return tellVerdict("bad", "The signature is not by this key", told(refusal(verified)),
      soft("Another secret signed the token, or somebody changed it. Over HTTP that is 401."));
  }
  if (verified && code !== 24) return tellVerdict("bad", "Refused", told(refusal(verified)));
  if (first < 0) {
    return tellVerdict("good", holds.length ? "Every caveat holds" + when : "There is no caveat to hold",
      soft("It is granted if a key of the name signed it. Where a service answers 401, none did." + help));
  }
  const rest = holds.filter((it) => !it).length - 1;
  tellVerdict("bad", "Caveat " + first + " is not satisfied",
    told("refused 24: caveat " + first + " is not satisfied: ", printed(caveatBytes(first))),
    soft("It is number " + (first + 1) + " of " + holds.length + ", as the daemon counts from 0. " +
      (rest ? counted(rest, "more caveat") + " behind it fail" + (rest === 1 ? "s." : ".") : "")),
    verified ? soft("A key of the name ", key, " signed it. Over HTTP that is 403, with ", header, ".")
      : soft("Over HTTP that is 403, with ", header, ". Where it is 401, no key of the name signed it." + help));
}

function caveatBytes(at) {
  return field(said.caveats[at], "text", "bytes64").bytes;
}

// ---- The line of time

// The bounds and now, each pair as far from another as the logarithm of what lies between them: so a bound that passed
// a minute ago and one in a hundred years have room on one line.
function showLine() {
  const ends = bounds.filter((it) => it && it.at >= 0);
  const marks = [...new Set([asOf, ...ends.map((it) => it.at)])].sort((a, b) => a - b);
  const pad = Math.max(3600, Math.ceil((marks[marks.length - 1] - marks[0]) / 10));
  const moments = [...new Set([Math.max(0, marks[0] - pad), ...marks, marks[marks.length - 1] + pad])];
  const places = [0];
  for (let at = 1; at < moments.length; at += 1) {
    places.push(places[at - 1] + Math.log(2 + moments[at] - moments[at - 1]));
  }
  line = { moments, places: places.map((it) => it / places[places.length - 1] * 1000) };
  const x = (moment) => placeOf(moment) / 10 + "%";
  const from = Math.max(moments[0], ...bounds.filter((it) => it && !it.isEnd).map((it) => it.at));
  const to = Math.min(moments[moments.length - 1], ...bounds.filter((it) => it && it.isEnd).map((it) => it.at));
  const parts = [drawn("rect", "rail", { x: 0, y: 30, width: "100%", height: 8, rx: 4 })];
  if (from < to) {
    const width = (placeOf(to) - placeOf(from)) / 10 + "%";
    parts.push(drawn("rect", "window", { x: x(from), y: 30, width, height: 8 }));
  }
  parts.push(drawn("line", "now", { x1: x(asOf), x2: x(asOf), y1: 24, y2: 50 }));
  parts.push(drawn("text", "now", { x: x(asOf), y: 8 }, "now"));
  const labels = new Map();
  bounds.forEach((it, at) => it && it.at >= 0 && labels.set(it.at, [...(labels.get(it.at) || []), at]));
  for (const [moment, numbers] of labels) {
    parts.push(drawn("line", "bound", { x1: x(moment), x2: x(moment), y1: 24, y2: 50 }));
    const front = labels.size < 4 ? "caveat " : "";
    parts.push(drawn("text", "", { x: x(moment), y: 21 }, front + numbers.slice(0, 3) + (numbers[3] ? ".." : "")));
  }
  $("line").replaceChildren(...parts);
  if (picked === null || document.activeElement !== $("moment")) {
    $("moment").value = Math.round(placeOf(picked === null ? asOf : picked));
  }
}

function drawn(kind, name, settings, text = "") {
  const part = document.createElementNS("http://www.w3.org/2000/svg", kind);
  if (name) part.setAttribute("class", name);
  for (const [key, value] of Object.entries(settings)) part.setAttribute(key, value);
  part.textContent = text;
  return part;
}

// A moment's place on the line, from 0 to 1,000.
function placeOf(moment) {
  return between(line.moments, line.places, moment);
}

// The moment at a place of the line; close to a mark it is the mark's.
function momentAt(place) {
  const near = line.places.findIndex((it) => Math.abs(it - place) < 3);
  return near >= 0 ? line.moments[near] : Math.round(between(line.places, line.moments, place));
}

// What lies in one list of numbers as far as `it` does in the other.
function between(from, to, it) {
  const at = Math.max(1, from.findIndex((end) => end >= it));
  return to[at - 1] + (to[at] - to[at - 1]) * (it - from[at - 1]) / (from[at] - from[at - 1]);
}

function pick(moment) {
  picked = moment;
  check();
}

function showWords() {
  const moment = picked === null ? asOf : picked;
  const front = picked === null ? "Now: " : "Picked: ";
  const words = make("span", "", front, dated(moment), picked === null ? "" : ", " + away(moment));
  $("moment-words").replaceChildren(words);
  $("moment").setAttribute("aria-valuetext", words.textContent);
  $("back").disabled = picked === null;
  if (document.activeElement !== $("exact")) {
    const date = new Date(moment * 1000);
    const local = new Date(moment * 1000 - date.getTimezoneOffset() * 60000);
    $("exact").value = local.toISOString().slice(0, 19);
  }
  showCommands();
}

// ---- Facts, and caveats to add

function addTo(list, text) {
  if (text !== "" && !list.includes(text)) list.push(text);
  showChips();
  return list === facts ? check() : narrow();
}

function showChips() {
  for (const [list, id, kind] of [[facts, "facts", "fact"], [added, "added", "caveat"]]) {
    $(id).replaceChildren(...list.map((text, at) => {
      const drop = button("\u00d7", "Remove " + kind + " " + shown(text, 200).textContent, () => {
        list.splice(at, 1);
        showChips();
        const rest = $(id).querySelectorAll("button");
        (rest[Math.min(at, rest.length - 1)] || $(kind)).focus();
        list === facts ? check() : narrow();
      }, "");
      return make("li", "", make("code", "", shown(text, 200)), drop);
    }));
  }
}

// What is told of new caveats that can hardly hold: what the daemon says, and which time limits have passed.
function doubtsOf(told, caveats) {
  const passed = caveats.map(boundOf).flatMap((it, caveat) => !it || !it.isEnd || it.at > now() ? []
    : [{ caveat, reason: "a caveat is a time limit that has passed, and holds only as a fact" }]);
  return [...(told.warnings || []), ...passed]
    .map((it) => "A" + it.reason.slice(1) + ": " + printed(utf8(caveats[it.caveat])));
}

const FORMS = [["v1-text", "V1, base64"], ["v2-text", "V2, base64"], ["v2-json", "V2 JSON, base64url"]];

async function narrow() {
  if (!said) return;
  const turn = ++turns.narrow;
  $("follow").disabled = true;
  const caveats = [...added];
  const replies = caveats.length === 0 ? []
    : await Promise.all(FORMS.map(([form]) => ask("/attenuate", { token: pasted.token, caveats, form })));
  if (turn !== turns.narrow) return;
  made = null;
  const first = replies.find((reply) => reply.status === 200);
  $("caveat-warning").textContent = first ? doubtsOf(first.told, caveats).join(" ") : "";
  const rows = replies.map((reply, at) => {
    if (reply.status !== 200) {
      return make("li", "", make("span", "soft", FORMS[at][1]), make("code", "", refusal(reply)));
    }
    if (FORMS[at][0] === said.form || !made) made = reply.told.token;
    return copied(FORMS[at][1], reply.told.token);
  });
  if (replies[2] && replies[2].status === 200) {
    rows.push(copied("V2 JSON as it is", new TextDecoder().decode(bytesOf(replies[2].told.token))));
  }
  $("copies").replaceChildren(...rows);
  $("new").hidden = rows.length === 0;
  $("follow").disabled = !made;
  const binary = replies[1] && replies[1].status === 200 ? bytesOf(replies[1].told.token) : null;
  showChain(caveats, binary && hex(binary.slice(-32)));
  showCommands();
}

// A row with a text to copy.
function copied(name, text, kind = "short") {
  const code = make("code", kind, shown(text));
  const copy = button("Copy", "Copy " + name, async () => {
    try {
      await navigator.clipboard.writeText(text);
      $("spoken").textContent = "Copied: " + name;
      copy.textContent = "Copied";
      setTimeout(() => { copy.textContent = "Copy"; }, 2000);
    } catch {
      $("spoken").textContent = "The browser doesn't allow to copy; the text is selected";
      getSelection().selectAllChildren(code);
    }
  });
  return make("li", "", make("span", "soft", name), code, copy);
}

// A word for a shell: between quotation marks, or with escapes where a character doesn't show.
function quoted(text) {
  if (!HIDDEN.test(text)) return "'" + text.replace(/'/g, "'\\''") + "'";
  return "$'" + spelled(utf8(text), (it) => it, "'\\").join("") + "'";
}

function option(name, text) {
  return text.startsWith("-") ? " --" + name + "=" + quoted(text) : " --" + name + " " + quoted(text);
}

function showCommands() {
  const verify = "macaroond verify --keys FILE --key " + ($("name").value || "NAME") +
    facts.map((it) => option("fact", it)).join("") + (picked === null ? "" : " --at " + timed(picked)) + " -";
  const rows = [copied("Verify it", verify, "whole")];
  if (added.length) {
    const attenuate = "macaroond attenuate" + added.map((it) => option("caveat", it)).join("") + " -";
    rows.unshift(copied("Narrow it", attenuate, "whole"));
  }
  rows.push(copied("Look at it", "macaroond inspect -", "whole"));
  const codes = (parts) => [...parts].map((it) => it.querySelector("code").textContent).join("\n");
  if (codes($("commands").children) !== codes(rows)) $("commands").replaceChildren(...rows);
}

// ---- The chain

function showChain(caveats, signature) {
  const point = (name, ...parts) => make("li", name, make("span", "dot"), ...parts);
  const step = (name, what, told) => {
    const front = told.bytes.slice(0, 6);
    const digits = hex(front).replace(/..(?=.)/g, "$& ") + (told.bytes.length > 6 ? " .." : "");
    return make("li", "step" + name, make("div", "", make("b", "", "HMAC"), " with " + what + " ",
      make("span", "mono", shownField(told, 28)), make("small", "mono", digits)));
  };
  const lost = () => point("secret", make("small", "", "a signature that the token no longer has"));
  const known = (digits, what) => point("known", make("code", "", digits.slice(0, 16) + ".."), " " + what);
  const steps = [step("", "the identifier", field(said, "identifier", "identifier64")),
    ...said.caveats.map((it, at) => step("", "caveat " + at, field(it, "text", "bytes64")))];
  const parts = [point("key secret", "the root key ", make("small", "", "which only who mints has"))];
  steps.forEach((it, at) => {
    const isMiddle = steps.length > 9 && at > 3 && at < steps.length - 4;
    if (isMiddle && at === 4) {
      parts.push(make("li", "step", make("div", "", counted(steps.length - 8, "more step"))), lost());
    }
    if (!isMiddle) parts.push(it, at < steps.length - 1 ? lost() : known(said.signature, "the signature"));
  });
  if (signature) {
    caveats.forEach((text, at) => {
      const isLast = at === caveats.length - 1;
      parts.push(step(" more", "your caveat", { text, bytes: utf8(text) }));
      parts.push(isLast ? known(signature, "the new signature") : lost());
    });
  }
  $("chain").replaceChildren(...parts);
}

// ---- Minting

async function mint() {
  const body = { identifier: $("identifier").value, location: $("location").value, form: $("mint-form-of").value };
  body.caveats = $("mint-caveats").value.split("\n").filter(Boolean);
  const reply = await ask("/mint/" + encodeURIComponent($("mint-name").value), body);
  if (reply.status !== 200) return $("minted").replaceChildren(told(refusal(reply)));
  const { token } = reply.told;
  const doubts = doubtsOf(reply.told, body.caveats).map((it) => make("p", "warning", it));
  $("minted").replaceChildren(...doubts, make("ul", "copies", copied("The token that was minted", token)),
    make("p", "row", button("Look at it", "", () => paste(token))));
}

// ---- What the reader does

function paste(text) {
  $("token").value = text;
  added = [];
  showChips();
  $("token").focus();
  scrollTo(0, 0);
  look();
}

function soon(act) {
  let timer = 0;
  return () => {
    clearTimeout(timer);
    timer = setTimeout(act, 120);
  };
}

$("token").addEventListener("input", soon(look));
$("example").onclick = () => paste(EXAMPLE);
$("clear").onclick = () => paste("");
$("follow").onclick = () => paste(made);
$("name").onchange = check;
$("back").onclick = () => {
  pick(null);
  $("moment").focus();
};
const checkSoon = soon(check);
$("moment").addEventListener("input", () => {
  picked = momentAt(Number($("moment").value));
  showWords();
  checkSoon();
});
$("exact").addEventListener("input", () => {
  const seconds = Math.floor(new Date($("exact").value).getTime() / 1000);
  if (seconds >= 0) pick(seconds);
});
for (const [id, field, list] of [["fact-form", "fact", () => facts], ["caveat-form", "caveat", () => added]]) {
  $(id).onsubmit = (event) => {
    event.preventDefault();
    addTo(list(), $(field).value);
    $(field).value = "";
    $(field).focus();
  };
}
for (const button of document.querySelectorAll("[data-ends]")) {
  button.onclick = () => addTo(added, "time < " + timed(now() + Number(button.dataset.ends)));
}
$("mint-form").onsubmit = (event) => {
  event.preventDefault();
  mint();
};
// A bound that passes while one looks turns its caveat over.
setInterval(() => {
  if (said && !gone && bounds.some((it) => it && it.at > asOf && it.at <= now())) check();
}, 1000);

// Where the daemon ends, the page says so without being asked.
setInterval(() => document.hidden || isHere(), 3000);
// The address of another daemon was opened in this tab.
addEventListener("hashchange", () => location.reload());

if (!secrets.ours) end("This page is to be opened at the whole address that `macaroond page` printed.");
(async () => {
  const reply = await ask("/names");
  names = reply.status === 200 ? reply.told.names : [];
  $("mint").hidden = names.length === 0;
  const options = () => names.map((it) => make("option", "", it));
  const none = make("option", "", "none");
  none.value = "";
  $("name").replaceChildren(none, ...options());
  $("mint-name").replaceChildren(...options());
  $("choice").hidden = names.length === 0 || !said;
})();
look();
