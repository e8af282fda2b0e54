// The desk's frame: what is asked of the server, the study that is open, its study.toml, its runs.
import { at, button, chip, h, like, nodes, number, same, tip } from "./dom.js";
import { bar, chipOf, nameOf } from "./runs.js";
import { guide, home, screens } from "./screens.js";

const POLL = 500; // milliseconds between two looks at a run
const AGAIN = 300; // .. before what didn't reach the desk is asked once more
const OTHERS = 4; // of these looks each is at what others do, too
const SHOWN = 6000; // that a message stays, unless it is of something that goes on
/** What is known of a study that is opened. */
const opened = study => ({ study, look: null, check: null, rose: null, events: {}, typed: {},
  cells: {}, edits: null, changed: new Set() });
/** All that is known of the folder and of the open study. */
export const D = { home: null, naming: null, dropped: null, ...opened(null) };
export const byId = id => document.getElementById(id);
const pause = ms => new Promise(done => { setTimeout(done, ms); });
/** @returns {string} the name of who sits here */
const who = () => localStorage.getItem("who") ?? "";
const root = document.documentElement.dataset; // what is under way, for who tests the desk
/** @param {string} text @param {string} kind */
export function say(text, kind = "") {
  const line = h("div", { className: `said ${kind}` }, text);
  byId("say").append(line);
  if (kind !== "on") setTimeout(() => line.remove(), kind === "bad" ? 5 * SHOWN : SHOWN);
  return line;
}

/** Asks before it is done. @param {string} question @returns {Promise<boolean>} */
export const agreed = question => new Promise(done => {
  const dialog = byId("asks");
  dialog.querySelector("p").textContent = question;
  dialog.onclick = e => e.target.id && e.target !== dialog && dialog.close(e.target.id);
  dialog.onclose = () => dialog.open || done(dialog.returnValue === "yes"); // not an earlier one's
  return dialog.open || dialog.showModal(); // one at a time
});

/** Whether the desk doesn't answer, or has another token. */
const isGone = () => document.body.matches(".away, .shut");
/** Asks the server. What it refuses comes with `errors`, in pitplan's words. @param {any} body */
export async function ask(method, path, body, { quiet = false, raw = false } = {}) {
  if (!path) return { ok: false, errors: [] }; // the study was left meanwhile
  const how = body === undefined || raw ? { method, body }
    : { method, body: JSON.stringify(body), headers: { "content-type": "application/json" } };
  const send = () => fetch(path, how).catch(() => null);
  let answer = await send(); // a connection may break under a desk that is there
  if (!answer && method === "GET") answer = await pause(AGAIN).then(send);
  const wasGone = isGone();
  document.body.classList.toggle("away", !answer);
  document.body.classList.toggle("shut", answer?.status === 403
    && answer.headers.get("x-desk") === "another token");
  if (isGone()) return { ok: false, isGone: true, errors: [] };
  if (wasGone && D.study?.text) refresh();
  const isJson = answer.headers.get("content-type")?.startsWith("application/json");
  const facts = isJson ? await answer.json() : { errors: [{ said: await answer.text() }] };
  if (!answer.ok && !quiet) say(facts.errors?.[0]?.said ?? answer.statusText, "bad");
  return Object.assign(facts, { ok: answer.ok }); // a run has a status of its own
}

/** Asks for something; what is refused is shown where it belongs. @param {string} path */
export const look = path => ask("GET", path, undefined, { quiet: true });
/** @param {...any} parts @returns {string} the path of something of the open study */
export const api = (...parts) => D.study && at("api", "studies", D.study.name, ...parts);
/** @param {string} path @param {string} how */
export const file = (path, how = "") => at("files", D.study.name, path) + how;
export const link = (...parts) => "#" + at(...parts);
/** @returns {{study: string, screen: string, part: string}} what the address says */
export function where() {
  const [, study, screen, part] = location.hash.split("/").map(decodeURIComponent);
  return { study, screen: screens[screen] ? screen : "table", part };
}
/** @returns {string} the screen that is shown, or the part of it */
export const here = () => [where().screen, where().part].filter(it => it && it !== "run").join("/");
const stands = path => path.reduce(stepped, D.study.values ?? {});
let sent = []; // changes that are on their way
/** @param {any[]} path @returns {any} what study.toml has there, or is about to have */
export const valueOf = path => path.reduce(stepped, sent.reduce((values, { path: to, value }) => (
  put(values, to, made(value, at => at.reduce(stepped, values)))), D.study.values ?? {}));
/** @param {any} value or what makes it of what stands at paths @param {(at: any[]) => any} read */
const made = (value, read) => (typeof value === "function" ? value(read) : value);
/** The values with another value at a path, or with none: what is beside it is the same. */
function put(values, [step, ...rest], value) {
  const [isList, isName] = [Array.isArray(values), typeof step === "string"];
  const place = isList && isName ? values.findIndex(each => each.name === step) : step;
  if (place === -1) return values;
  const now = rest.length ? put(values?.[place] ?? {}, rest, value) : value;
  const copy = isList ? [...values] : { ...values };
  if (now !== null && now !== undefined) copy[place] = now;
  else if (isList) copy.splice(place, 1);
  else delete copy[place];
  return copy;
}
/** @param {any} v @param {string|number} step by its name in a list of tables @returns {any} */
export const stepped = (v, step) => (Array.isArray(v) && typeof step === "string"
  ? v.find(each => each.name === step) : v?.[step]);

// What is written goes one change after the other; how many are under way stands at the root.
let queued = Promise.resolve();
let written = 0; // changes that were answered
const wait = more => { root.pending = Number(root.pending ?? 0) + more; };
/** @param {{path: any[], value: any, was?: any}[]} changes of study.toml: null takes a key out, a
 * function makes it of what stands there then, and `was` goes before what stands there now */
export function change(...changes) {
  sent = [...sent, ...changes];
  const answered = queue(() => ({ changes: changes.map(
    ({ path, value, was = stands(path) ?? null }) => (
      { path, value: made(value, stands), was })) }), changes);
  draw(); // so that who goes on sees what is about to stand there
  return answered;
}

/** @param {() => any} body @param {any[]} changes that it has @returns {Promise<any>} */
export function queue(body, changes = []) {
  wait(1);
  // one that failed keeps no other one back
  queued = queued.catch(() => undefined).then(() => write(body, changes)).finally(() => wait(-1));
  return queued;
}

async function write(body, changes) {
  if (!D.study?.text) return undefined;
  const before = new Set(D.study.text.split("\n")), send = () => ask("PATCH", path, asked);
  const [path, asked] = [api(), { ...body(), who: who() }];
  let answer = await send();
  // what was typed waits for the desk
  for (; answer.isGone; answer = await send()) await pause(AGAIN);
  sent = sent.filter(each => !changes.includes(each));
  if (!answer.ok) return reread().then(draw); // written all the same, where only the answer failed
  if (answer.name !== D.study?.name) return undefined; // the study was left meanwhile
  if (!same(answer.values?.model, D.study.values?.model)) relook();
  Object.assign(D, { study: answer, edits: D.edits?.text === asked.text ? null : D.edits });
  written += 1;
  for (const each of sent) { // typed over this one: it has seen what was typed, not what it became
    const isOver = done => same(done.path, each.path) && same(done.value, each.was);
    if (changes.some(isOver)) each.was = stands(each.path) ?? null;
  }
  if (answer.kept) say(`what stood in study.toml is kept as ${answer.kept}`, "good");
  D.changed = new Set(answer.text.split("\n").flatMap((l, n) => (before.has(l) ? [] : [n])));
  await draw();
  return refresh();
}

// What is asked anew after each change: once at a time, and of those that wait the latest alone.
let checked = Promise.resolve(), latest = 0;
function refresh() {
  const mine = latest += 1;
  checked = checked.catch(() => undefined).then(() => mine === latest && recheck(mine));
  return checked;
}
async function recheck(mine) {
  const of = D.study?.name, wants = where().screen === "slopes" ? ["check", "rose"] : ["check"];
  const [check, rose = null] = await Promise.all(wants.map(it => look(api(it))));
  if (mine !== latest || isGone() || of !== D.study?.name) return; // it is asked anew
  Object.assign(D, { check, rose, typed: {} });
  await draw();
}

/** @param {string} name */
async function open(name) {
  Object.assign(D, opened({ name }));
  await draw(); // nothing of another study is left to be pressed
  const found = await reread();
  if (D.study?.name !== name) return;
  if (!found.ok) {
    say(found.errors[0]?.said ?? "", "bad");
    location.hash = "#/";
  } else await draw().then(() => Promise.all([refresh(), relook()]));
}

let isUnread = false; // what the desk couldn't tell is asked again
/** Asks, and keeps it. @param {string} key of D @param {...string} path @returns {Promise<any>} */
async function kept(key, ...path) {
  const [of, before] = [D.study?.name, written], found = await look(api(...path));
  if (D.study?.name !== of) return found;
  if (key === "study" && written !== before) return kept(key, ...path); // asked before a change
  if (key === "study") isUnread = !found.ok;
  if (found.ok || key === "look") D[key] = found; // what is wrong with a table is told
  return found;
}
const reread = () => kept("study");
const relook = () => kept("look", "look").then(draw); // by the keys of [model]
/** @param {number} which @returns {Promise<any>} a run with all that it has told */
export async function eventsOf(which) {
  const { list, upto } = D.events[which] ?? { list: [], upto: 0 }, of = D.study.name;
  const run = await look(`${api("runs", which)}?from=${upto}`);
  if (!run.ok || D.study?.name !== of) return null;
  D.events[which] = { list: [...list, ...run.events], upto: run.upto };
  D.study.runs = D.study.runs.map(each => (each.number === which ? run : each));
  return run;
}

/** @param {any} asked as button_commands.py has it */
export const start = asked => ask("POST", api("runs"), { ...asked, who: who() })
  .then(begun => begun.ok && reread().then(draw));

/** @returns {any} the run that goes on, if one does */
export const going = () => D.study?.runs?.find(run => run.state === "running");
/** @param {any} asked @returns {any} the commands that a button stands for, as they are typed */
export function typed(asked) {
  const key = JSON.stringify(asked);
  if (!D.typed[key]) {
    D.typed[key] = { typed: ["…"] };
    ask("POST", api("commands"), asked, { quiet: true }).then(keep(D.typed, key));
  }
  const { typed: lines = [], errors = [] } = D.typed[key];
  const words = errors.map(e => e.said + (e.try ? `; try: ${e.try}` : ""));
  return h("code.typed", { title: "the same, typed in a terminal" },
    [...lines, ...words].map(each => h("span", each)));
}

let goes = ""; // the run that went on when it was last drawn: whatever sees its end, it is told
function tellEnd() {
  const now = D.study?.runs?.find(run => `${D.study.name} ${run.number}` === goes);
  if (now && now.state !== "running") say(`${nameOf(now)}: ${now.state}`, chipOf(now).classList[1]);
  goes = going() ? `${D.study.name} ${going().number}` : "";
}

/** Looks at what others do: in other windows, in an editor, in a terminal. @param {any} was */
async function pulse(was) {
  const { ok, errors, ...beat } = await look(api("pulse"));
  if (!ok || D.study !== was || root.pending > 0 || (same(beat, was.pulse) && !isUnread)) return;
  const of = { etag: "study.toml", table: "the table" };
  const others = Object.keys(of).filter(key => beat[key] !== was.pulse[key]);
  others.forEach(key => say(`${of[key]} was changed, and is read again`));
  await reread().then(draw);
  if (others.includes("table")) await relook();
  if (others.length) await refresh();
}

async function watch(n) {
  const now = going() && await eventsOf(going().number);
  if (now) await (now.state === "running" ? draw() : reread().then(draw));
  if (n % OTHERS === 0 && D.study?.text && !document.hidden && !D.edits) await pulse(D.study);
}
const beat = n => watch(n).finally(() => setTimeout(beat, POLL, n + 1));
/** @returns {any[]} all that is wrong, each once, in pitplan's words */
export function faults() {
  const all = [...(D.study?.outside ?? []), ...(D.check?.errors ?? []), ...(D.rose?.errors ?? []),
    ...(D.check?.errors?.length ? [] : D.look?.errors ?? [])];
  return all.filter((f, i) => all.findIndex(other => other.said === f.said) === i);
}

const HOMES = { economics: "money", slopes: "slopes", shells: "pits", schedule: "pits/years" };
/** @param {any[]} key @returns {string} the screen, or the part of one, that has its field */
export const placeOf = key => HOMES[key?.[0]] ?? "table";

function top() {
  const run = going();
  like(byId("now"), nodes([
    h("h1", { className: D.study ? "" : "quiet" }, D.study?.name ?? D.home?.folder ?? ""),
    !run && D.study?.state && h("span", { id: "state" }, chip(...D.study.state.said)),
    run && h("div", { id: "running" }, h("code", run.far.command),
      h("span", `${run.far.what}, ${number(run.seconds)} s`), bar(run.far),
      button("Stop", () => ask("DELETE", api("runs", run.number)),
        { className: "stop", id: "stop" })),
    !run && D.study?.pulse?.held && chip("warn", D.study.pulse.held)]));
}

/** A link to a screen, or to a part of one. @param {string} id @param {string[]} to */
export const tab = (id, to, label, isHere, mark = "") => h("a", { href: link(D.study.name, ...to),
  id, className: (isHere ? "here " : "") + mark, "aria-current": isHere ? "page" : null }, label);
function nav(isStudy) {
  const wrong = faults().map(f => placeOf(f.key).split("/")[0]);
  const tabs = Object.entries(screens).map(([name, s]) => isStudy && tab(`to.${name}`, [name],
    s.label, where().screen === name, wrong.includes(name) ? "wrong" : ""));
  like(byId("nav"), nodes(tabs));
}
/** Shows the field of a key. @param {string} section @param {string} key */
export async function toField(section, key) {
  const id = `f.${section}.${key}`;
  if (!byId(id)) location.hash = link(D.study.name, placeOf([section]));
  await go();
  byId(id)?.scrollIntoView({ block: "center" });
  byId(id)?.querySelector("input,select")?.focus();
}

const focused = () => document.activeElement?.closest?.(".field");
/** @returns {any[]} the lines of study.toml, each that has a key with a way to its field */
function lines() {
  const [bad, at] = [new Set(faults().map(f => f.line)), focused()?.id];
  return D.study.lines.map(({ section, key, said, comment }, n) => {
    const classes = [comment && "clip", D.changed.has(n) && "new", bad.has(n + 1) && "wrong",
      said.trimStart().startsWith("[") && "head", key && "key",
      key && at === `f.${section}.${key}` && "at"];
    return h("li", { className: classes.filter(Boolean).join(" "), title: comment
      && said.trim() + comment, id: key && `line.${section}.${key}`,
    onclick: key && (() => toField(section, key)) }, said, h("i", comment));
  });
}

/** The pane of study.toml: its lines, or its text while somebody edits it. */
function aside() {
  const isStudy = Boolean(D.study?.text);
  if (isStudy && D.edits && byId("edits")) return; // what is being typed stays
  const [{ edits }, { text: now, pulse: { etag } = {} }] = [D, D.study ?? {}];
  const edit = keep(D, "edits");
  const save = () => queue(() => edits).then(() => { edits.etag = D.study?.pulse?.etag; });
  const [presses, body] = !isStudy ? [] : edits ? [[
    button("Save", save, { className: "main", id: "save" }), button("Leave it", () => edit(null))],
  h("textarea", { id: "edits", spellcheck: false, value: edits.text,
    "aria-label": "the text of study.toml", oninput: e => { edits.text = e.target.value; } })]
    : [button("Edit as text", () => edit({ text: now, etag }), { id: "edit" }),
      [h("ol", { tabIndex: 0 }, lines()), h("p.help", focused() && (document.activeElement.title
        || focused().querySelector(".name").title))]];
  like(byId("text"), nodes(isStudy ? [h("div.bar", h("b", "study.toml"), presses), body] : []));
  const first = D.scrolled !== etag && byId("text").querySelector("li.new");
  if (!first) return;
  D.scrolled = etag;
  first.scrollIntoView({ block: "nearest" });
}

/** Keeps what is chosen, and draws. @param {any} choices @param {string} key @param {Take} read */
export const keep = (choices, key, read = v => v) => v => Object.assign(choices,
  { [key]: read(v) }) && draw();
// The id of what drawing took the focus from, until it can have it again.
let lost = "";
function refocus(before) {
  if (before?.id && (!before.isConnected || before.disabled)) lost = before.id;
  const next = lost && byId(lost);
  if (!next || next.disabled) return;
  if ([document.body, null].includes(document.activeElement)) next.focus({ preventScroll: true });
  lost = "";
}

let drawn = null;
export async function draw() {
  if (isGone()) return; // what was typed stays as it is
  tellEnd();
  const { screen, part } = where();
  const before = document.activeElement, isStudy = Boolean(D.study?.text);
  const isOpening = D.study && !isStudy;
  const isFull = isStudy && ((screen === "pits" && part === "page") || screen === "history");
  document.body.className = (D.study ? "study" : "home") + (isFull ? " full" : "");
  document.title = isStudy ? `${D.study.name} - pitplan desk` : "pitplan desk";
  top();
  nav(isStudy);
  aside();
  const main = byId("main");
  const fresh = nodes(isStudy ? [guide(screen), screens[screen].draw(part)]
    : [isOpening ? tip("is read ...") : D.home ? home() : ""]);
  if (drawn === location.hash) like(main, fresh);
  else {
    main.replaceChildren(...fresh);
    main.scrollTop = 0;
    if (drawn !== null) main.focus(); // not where the page has just been opened
  }
  refocus(before);
  drawn = isOpening ? drawn && "" : location.hash;
  root.drawn = drawn ?? "";
}

export async function go() {
  const { study, screen } = where();
  if (!study) {
    D.study = null;
    await draw();
    const folder = await ask("GET", "/api/folder");
    if (folder.ok) D.home = folder;
  } else {
    D.home ??= await ask("GET", "/api/folder");
    if (D.study?.name !== study) return open(study);
  }
  await draw();
  return study && screen === "slopes" && !D.rose && refresh();
}

byId("skip").onclick = e => { e.preventDefault(); byId("main").focus(); };
addEventListener("hashchange", go);
// beside a field stand its line and what it says
for (const event of ["focusin", "focusout"]) addEventListener(event, () => setTimeout(aside));
// beside a place for files nothing is opened
const refuse = e => e.target.type === "file" || e.preventDefault();
for (const event of ["dragover", "drop"]) addEventListener(event, refuse);
addEventListener("securitypolicyviolation", e => {
  root.complaint = `${e.violatedDirective} ${e.blockedURI}`;
});
byId("who").value = who();
byId("who").onchange = e => localStorage.setItem("who", e.target.value.trim());
go();
beat(1);
