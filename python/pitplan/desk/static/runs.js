// Runs: how far one is, and what it has said, from its events.
import { amounts, button, card, chip, choice, entry, h, labelled, look, number, table, tick, tip,
  when } from "./dom.js";
import { D, ask, draw, eventsOf, file, going, keep, start, typed, valueOf } from "./desk.js";
import { faultBox } from "./fields.js";
/** A button with the commands that it runs. @param {any} asked as button_commands.py has it */
export function runner(id, label, asked, { needs = false, main = false } = {}) {
  const s = D.study.state;
  const disabled = Boolean(going()) || D.check?.errors?.length > 0
    || (needs && (!s.built || Boolean(s.old)));
  return h("div.runner", button(label, () => start(asked),
    { id, className: main ? "main" : "", disabled }), typed(asked));
}
/** Boxes to tick, to choose from a list, or to type in. @param {any} own what is chosen */
export const boxes = (own, all) => amounts(Object.entries(all).map(([key, form]) => {
  const [label, how, read] = [form].flat();
  if (!how) return tick(key, label, own[key], keep(own, key));
  return labelled(key, label, Array.isArray(how) ? choice(key, how, own[key], keep(own, key, read))
    : entry(key, own[key], keep(own, key, read), { className: "w5", ...how }));
}));

const by = { schedule: false };
/** @param {string} words @returns {any} a box to tick, where the study has a plan by years */
export const byYears = words => D.study.state.schedule && tick("by.years", words, by.schedule,
  keep(by, "schedule"));
/** @returns {{schedule?: boolean}} what the box adds to what is asked for */
export const years = () => (by.schedule && D.study.state.schedule ? { schedule: true } : {});
/** Above results that study.toml doesn't give any more, and a file that the latest run lacks. */
export function before(isOne) {
  const [made] = isOne ? filesOf(isOne) : [];
  const run = D.study.runs.find(each => ["all", "shells"].includes(each.what));
  const isEarlier = made && run && run.state !== "done" && made.when < run.began;
  return [D.study.state.old && h("p.look.before",
    "These are of the study before it was changed: build, and find the pits again."),
  isEarlier && h("p.look.before", { id: "earlier" }, `This is of an earlier run: "${nameOf(run)}"`,
    ` of ${when(run.began)} is ${run.state}, and hasn't made it anew.`)];
}
/** The rows of a table of pits, with a mark on the best one: that of the price as it is. */
const best = ({ names, rows }) => n => (names[0] === "factor" && Number(rows[n][0]) === 1
  && names.some(name => /^(best case|npv best)/.test(name))
  ? { className: "best", title: "the best pit, at the price as it is" } : {});
/** How each event of a run is told. @type {Object<string, (event: any) => any>} */
const SAID = {
  // what to type next in a terminal stands beside the buttons
  said: e => (/^(look:|the design (breaks|digs)) /.test(e.what) ? look(e.what.replace("look: ", ""))
    : h("p.said-line", e.what.replace(/; (then|certificates): \S*pitplan .*$/, ""))),
  look: e => look(e.what, e.try && `; try: ${e.try}`),
  error: e => faultBox({ ...e, key: e.key ?? [] }),
  table: e => [h("h3", e.title), table(e.names, e.rows, { className: "tight", rows: best(e) })],
};
/** @param {{what: string, at: number, of: number}} how */
export const bar = how => h("progress", { "aria-label": how.what,
  ...(how.of ? { value: how.at, max: how.of } : {}) });
/** @param {(f: any) => boolean} isOne @returns {any[]} files, the latest first */
const filesOf = isOne => D.study.files.filter(isOne).sort((a, b) => b.when - a.when);
const fresh = f => file(f.path, `?of=${f.when}`); // as it is now
/** @param {(f: any) => boolean} isOne @returns {any} pictures, if there are some */
export const pictures = isOne => filesOf(isOne).length > 0 && h("div.pictures", filesOf(isOne)
  .map(f => h("figure", h("img", { src: fresh(f), alt: f.path }), h("figcaption", f.path))));
/** @param {string} path of a page @param {string} title @returns {any} it, if it is there */
export const framed = (path, title) => filesOf(f => f.path === path).map(f => h("iframe.page", {
  src: fresh(f), title, sandbox: "allow-scripts allow-downloads" }))[0];
const NAMES = { all: "build, and pits", shells: "pits", phases: "pushbacks", compare: "design",
  vary: "what if", schedule: "plan by years", plot: "picture", export: "files",
  risk: "plan under realisations" };
/** @param {any} run @returns {string} what it is called */
export const nameOf = run => NAMES[run.what] ?? run.what;
const CHIPS = { done: "good", failed: "bad", killed: "bad", running: "" };
export const chipOf = ({ state, status }) => chip(state === "done" && status ? "warn"
  : CHIPS[state] ?? "warn", state);
export const linesOf = run => run.typed.map(words => h("code.line", words));
export const logOf = run => h("a", { href: file(`${run.folder}/log`, "?save=1"),
  download: `${run.number}.log` }, "log");
/** What a run has told: each command, and what came of it. @param {any} run */
function story(run) {
  const list = D.events[run.number]?.list;
  if (!list) {
    eventsOf(run.number).then(draw);
    return tip("is read ...");
  }
  const parts = [];
  for (const event of list) {
    if (event.event === "begin") parts.push([]);
    else parts.at(-1)?.push(SAID[event.event]?.(event));
  }
  return [run.far && h("div.far", bar(run.far), ` ${run.far.command}: ${run.far.what}`),
    parts.map((rest, i) => h("details.step", { id: `${run.number}.${i}`,
      open: i === parts.length - 1 || rest.some(e => e?.className === "fault") || i < 2 },
    h("summary", h("code", run.typed[i])), rest)),
    run.state === "killed" && tip("Its process was ended from outside. What was done is kept: the",
      " same again goes on from there.")];
}
/** @param {any} run @param {boolean} isOpen @returns {any} a run in a card */
function shown(run, isOpen) {
  const head = [h("b", nameOf(run)), " ", chipOf(run), " ", h("span.quiet",
    `by ${run.who}, ${when(run.began)}, ${number(run.seconds, 1)} s `), logOf(run)];
  const old = run.state === "done" && before();
  if (isOpen) return card(null, h("div.run-head", head), old, story(run));
  const ontoggle = e => e.target.open && !D.events[run.number] && eventsOf(run.number).then(draw);
  return h("details.card", { ontoggle, id: `run.${run.number}` },
    h("summary", head, " ", linesOf(run)), D.events[run.number] && story(run));
}
/** Tables in `out`, and what makes them. */
const MADE = { pit_by_pit: "shells", schedule: "schedule", phases: "phases", vary: "vary",
  vary_schedule: "vary", risk: "risk", risk_schedule: "risk" };
const LENGTHS = /^(bottom|bench|toe|crest|width|sink_(x|y|bench))$/;
const MONEY = /^(cash_flow|discounted|fixed_cost|npv.*|bound.*|worth.*)$/;
const figure = cell => (cell === "" || Number.isNaN(+cell) ? cell : (+cell).toLocaleString("en",
  { maximumFractionDigits: Math.abs(+cell) < 1e5 ? 3 : 0 })); // of elevations all of them
const cellsOf = text => text.trim().split("\n").map(line => [...`,${line}`.matchAll(
  /,(?:"((?:[^"]|"")*)"|([^,]*))/g)].map(([, quoted, bare]) => quoted ?? bare));
/** A column of a table of `out`, with the unit of its amounts. @param {string} column */
function named(column) {
  const [, kind, of] = column.match(/(grade|metal)_(.+)$/) ?? [];
  const metal = valueOf(["economics", "metals"])?.find?.(each => each.name === of);
  const { length = "m", weight = "t" } = valueOf(["model", "units"]) ?? {};
  const [key, usual] = kind === "grade" ? ["grade_unit", "%"] : ["price_unit", "t"];
  const money = MONEY.test(column) && (valueOf(["economics", "currency"]) ?? "$");
  const unit = metal ? metal[key] ?? usual : /_t$/.test(column) ? weight
    : LENGTHS.test(column) ? length : money, name = column.replaceAll("_", " ");
  return unit ? `${name.replace(/ t$/, "")} (${unit})` : name;
}
/** A table of `out` that no run of the desk has told. @param {any} f its file */
function tableOf(f) {
  const key = fresh(f);
  if (!D.events[key]) {
    D.events[key] = { list: [] };
    ask("GET", key).then(({ ok, errors: [text] }) => ok && keep(D.events, key)({
      list: cellsOf(text.said) }));
  }
  const [names, ...rows] = D.events[key].list;
  return names && card(null, before(), SAID.table({ title: f.path, rows: rows.map(row => (
    row.map(figure))), names: names.map(named) }));
}
/** What was made by a terminal, and the runs of some kinds, the latest open. */
export function runsOf(...kinds) {
  const runs = D.study.runs.filter(run => kinds.includes(run.what));
  const isOver = run => run.state === "failed"
    && D.study.runs.some(other => other.state === "done" && other.number > run.number);
  const isTold = f => runs.some(run => f.when > run.began && f.when < run.began + run.seconds + 1);
  const tables = filesOf(f => kinds.includes(MADE[f.path.match(/^out\/(\w+)\.csv$/)?.[1]]));
  return [...tables.filter(f => !isTold(f)).map(tableOf),
    ...runs.slice(0, 20).map((run, i) => shown(run, i === 0 && !isOver(run)))];
}
