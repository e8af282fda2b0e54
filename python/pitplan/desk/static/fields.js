// Fields, made from the description of the keys of study.toml: most by the schema of their kind.
import { amounts, box, button, choice, counted, entry, free, h, having, labelled, look, number,
  same, small, tick, value, word } from "./dom.js";
import { D, api, ask, byId, change, faults, here, keep, link, placeOf, stepped, toField,
  valueOf } from "./desk.js";
import { labelOf } from "./screens.js";

/** @typedef {{section: string, name: string, kind: string, label: string, schema: any,
 *   start: any, default: any, choices: string[]}} Key as study_keys.py has it */
const placed = path => path.map((step, i) => (i === 2 && Array.isArray(valueOf(path.slice(0, 2)))
  ? listNow(path[1]).findIndex((each, n) => [each.name, n].includes(step)) : step));
const idOf = path => `i.${path.join(".")}`;
const columns = () => (D.look?.columns ?? []).map(c => c.name);
const rocks = () => D.look?.rocks ?? [];
const listNow = name => valueOf(["economics", name]) ?? [];
const keysIn = section => D.home.keys.filter(k => k.section === section);
const keyOf = (section, name) => keysIn(section).find(k => k.name === name);
const isTable = v => typeof v === "object" && v !== null && !Array.isArray(v);
/** Its unit, and before it a large number as it is read. @param {Key} k @param {any} now */
const unitOf = (k, now) => [now].flat().filter(n => n >= 1e4 || n === 0).map(n => `= ${number(n)} `)
  .join("") + k.unit.replace("{currency}", valueOf(["economics", "currency"]) ?? "$");
const inParts = text => text.split(/;|,\s/.test(text) ? /;|,\s/ : ",");
const oneOrMore = text => (/[;,]\s+\S/.test(text) ? numbers : value)(text);
const numbers = text => word(text) && inParts(text.replace(/[;,]\s*$/, "")).map(value);
/** @param {any} now as `change` has it @param {any} was what stood there for whoever changes it */
export const set = (path, now, was) => (typeof now === "function" || !same(was, now))
  && change({ path, value: now, was });
const out = (path, title) => small("×", () => set(path, null), title);
/** A box for a number or words. @param {any[]} path @param {Key} key */
function input(path, key, { width, list, shown = valueOf(path), read = value } = {}) {
  const isOwn = path.at(-1) === key.name; // and not one of several
  const step = Number.isInteger(path.at(-1)) ? path.at(-1) + 1 : "";
  return box(valueOf(path) ?? null, { id: idOf(path), className: `w${width ?? (isOwn ? 7 : 5)}`,
    list, value: shown ?? "", placeholder: isOwn && [key.default, key.section === "schedule"
      && valueOf(["shells", key.name])].find(usual => /number|string/.test(typeof usual)),
    "aria-label": (isOwn || step) && `${key.label} ${step}`, autocomplete: "off",
    title: key.section !== path[0] && `${key.label}: ${key.help}` },
  read, (now, was) => set(path, now, was));
}

/** @param {any[]} path @param {any[]} options @param {string} [empty] what none is called */
function select(path, options, key, empty, read = word) {
  const now = String(valueOf(path) ?? "");
  const all = now === "" || options.includes(now) ? options : [...options, now];
  return choice(idOf(path), [...(empty === undefined ? [] : [["", empty]]), ...all], now,
    v => set(path, read(v)), path.at(-1) === key.name && key.label);
}
const METALS = ["economics", "metals"];
/** What the keys of a table may be, by what stands there and elsewhere. */
const NAMES = {
  rock: now => (isTable(now) && "other" in now ? [] : rocks().length && rocks().length < 12
    ? rocks() : [...rocks().slice(0, 11), "other"]),
  region: (now, at) => { // also of numbers, as domains are
    const { region, regions: all, columns: every = [] } = D.look ?? {}, by = at(["slopes", "by"]);
    return (by === region ? all : every.find(c => c.name === by)?.words) ?? [];
  },
  metal: (now, at) => (at(METALS) ?? []).map(metal => metal.name),
  process: (now, at) => (at(["economics", "processes"]) ?? []).map(process => process.name),
  currency: (now, at) => [...new Set(
    (at(METALS) ?? []).map(metal => metal.currency).filter(Boolean))],
};
const namesOf = (schema, now, at) => NAMES[schema.propertyNames.title](now, at);
/** @param {any} v @param {any} schema @returns {boolean} whether a value is of this form */
const fits = (v, { type, oneOf, properties, additionalProperties: each }) => (
  properties ? isTable(v) && Object.keys(v).every(key => key in properties)
    : oneOf ? oneOf.some(one => fits(v, one))
      : each ? isTable(v) && Object.values(v).every(part => fits(part, each))
        : type === "array" ? Array.isArray(v) : typeof v === type);

/** @param {any} v @returns {any} the number that a value of several numbers stands for */
const usual = v => (Array.isArray(v) ? usual(Array.isArray(v[0]) ? v[0] : v.at(-1))
  : isTable(v) ? usual(Object.values(v)[0]) : v);

/** What a form begins with: what stands there, as this form says it; `at` reads elsewhere. */
function start(schema, now, key, at) {
  const { type, items, properties, additionalProperties: each, oneOf } = schema;
  if (properties) return [now, ...Object.values(now ?? {}), key.default, key.start].find(
    v => fits(v, schema));
  if (oneOf) return start(oneOf[0], now, key, at);
  if (each) return Object.fromEntries(namesOf(schema, now, at).map(
    n => [n, start(each, now, key, at)]));
  const [first] = schema.enum ?? schema.examples ?? [];
  if (first !== undefined) return value(String(first));
  const one = [now, key.default, key.start, 1].map(usual).find(v => typeof v === "number");
  if (type !== "array") return type === "string" ? String(one) : one;
  return items.type === "array" ? [0, 90, 180, 270].map(bearing => [bearing, one]) : [one];
}
/** A form for what stands at a path. @param {any[]} path @param {Key} key @param {any} schema */
function form(path, key, schema = key.schema) {
  const { type, items = {}, properties, additionalProperties, oneOf } = schema;
  if (schema.enum) return select(path, schema.enum, key, undefined, value);
  if (properties || additionalProperties) return parts(path, key, schema);
  if (oneOf) return several(path, key, oneOf);
  if (type === "string") return input(path, key, { width: 34, list: "columns", read: word });
  if (type !== "array") return input(path, key);
  if (items.type === "array") return bearings(path, key, items);
  const count = [...Array(schema.maxItems ?? 0).keys()]; // where a list has always as many
  return schema.maxItems ? count.map(i => form([...path, i], key, items))
    : input(path, key, { width: 34, shown: valueOf(path)?.join?.(", "), read: numbers });
}
/** A value of one of several forms. @param {any[]} path @param {Key} key @param {any[]} ways */
function several(path, key, ways) {
  const now = valueOf(path), which = ways.find(way => fits(now ?? key.default, way)) ?? ways[0];
  if (now === undefined && which.required) return form(path, key, which);
  return amounts(choice(idOf([...path, "how"]), ways.map(way => way.title), which.title,
    title => set(path, at => start(ways.find(way => way.title === title), at(path)
      ?? at(["shells", key.name]), key, at)),
    "how it is told"), which.type === "number" ? input(path, key, { read: oneOrMore })
    : form(path, key, which));
}
/** A table: a form for each key that it has, and a button for each that it may have besides. */
function parts(path, key, schema, end = () => set(path, null)) {
  const { properties, required = [], additionalProperties: each } = schema, now = valueOf(path);
  if (required.length && !now) return small(`+ ${key.label.toLowerCase()}`,
    () => set(path, at => start(schema, at(path), key, at)));
  const has = Object.keys(now ?? {});
  const more = properties ? Object.keys(properties) : namesOf(schema, now, valueOf);
  const of = name => properties?.[name] ?? each;
  if (has.length + more.length === 0) return h("small", "none");
  const isWhole = required.length > 0 && path.at(-1) === key.name;
  return amounts(has.map(name => labelled(idOf([...path, name]), name, [
    form([...path, name], key, of(name)), !required.includes(name) && small("×",
      () => (has.length > 1 ? set([...path, name], null) : end()), `take ${name} out`)])),
  more.filter(name => !has.includes(name)).map(name => small(`+ ${name}`,
    () => set([...path, name], at => start(of(name), at(path) ?? at(["economics", "processes"])
      ?.find(process => process.name === name)?.rate, key, at)), key.help)),
  isWhole && out(path, `take ${key.label} out`));
}
/** Bearings, each with its degrees. @param {any[]} path @param {Key} key @param {any} items */
function bearings(path, key, items) {
  const now = valueOf(path), order = [...now.keys()].sort((i, j) => now[i][0] - now[j][0]);
  const more = all => {
    const [last, degrees] = all.reduce((one, other) => (other[0] >= one[0] ? other : one));
    return [...all, [Math.round((last + 360) / 2), degrees]];
  };
  return [h("small", "at bearing: degrees "), order.map(i => h("span.word",
    form([...path, i], key, items), now.length > 1 && small("×", () => set(path,
      at => at(path).filter((_, n) => n !== i)), `take bearing ${now[i][0]} out`))),
  small("+", () => set(path, at => more(at(path))), "a bearing more")];
}
function regions(path, key) {
  const { region, regions: there = [] } = D.look ?? {};
  const both = (by, now) => change({ path: ["slopes", "by"], value: by }, { path, value: now });
  if (valueOf(["slopes", "by"])) return parts(path, key, key.schema, () => both(null, null));
  return h("small", region ? [`${region} may say it: ${there.join(", ")} `,
    small(`regions by ${region}`, () => both(region, at => (
      { [there[0]]: at(["slopes", "angles"]) ?? 45 })))] : "none");
}
function words(path) {
  const now = valueOf(path) ?? [];
  return amounts(now.map(said => h("span.word", h("code", said === "" ? "an empty cell" : said),
    small("×", () => set(path, at => having(at(path), said, false)), `take ${said || "it"} out`))),
  entry(idOf(path), "", text => text && set(path, at => [...at(path) ?? [], text]),
    { className: "w9", placeholder: "one more" }));
}
function chosenRocks(path) {
  const now = valueOf(path);
  return amounts(rocks().map(rock => tick(idOf([...path, rock]), rock, now?.includes(rock) ?? true,
    is => set(path, at => having(at(path) ?? rocks(), rock, is)))),
  now ? small("all but air", () => set(path, null)) : h("small", "all but air"));
}

function fill(path, key) {
  const now = valueOf(path), domain = valueOf(["slopes", "by"]) ?? D.look?.region;
  const lists = { rock: rocks(), [domain]: D.look?.region === domain ? D.look?.regions : null };
  const of = name => (lists[name] ? { enum: lists[name] } : { type: "number" });
  const names = ["tonnes", "rock", ...(domain ? [domain] : []), ...Object.keys(now ?? {})];
  if (!now) return h("small", "is asked for where a hole is rock");
  return amounts(parts(path, key, { properties: Object.fromEntries(names.map(n => [n, of(n)])) }),
    out(path, "take it out"));
}

/** What columns are of, where their key doesn't say it to a planner. */
export const CALLED = { id: "id of a block", dx: "length along x", dy: "length along y",
  dz: "length along z", density: "density, t/m³", class: "resource class",
  topography: "percent that is rock", ore: "percent that is ore" };
const FORMS = {
  text: (p, k) => input(p, k, { width: 9, read: word }),
  file: (p, k) => input(p, k, { width: 34, read: word }),
  formula: (p, k) => input(p, k, { width: 34, list: "columns" }),
  choice: (p, k) => select(p, k.choices, k, valueOf(p) ? undefined : k.default ?? "found out"),
  flag: p => tick(idOf(p), "yes", valueOf(p) === true, is => set(p, is)),
  column: (p, k) => select(p, columns(), k, "none"),
  columns: (path, k) => h("div.grid", k.choices.map(name => {
    const [p, found] = [[...path, name], D.look?.names?.[name]];
    return labelled(idOf(p), CALLED[name] ?? name, select(p, columns(), k,
      found && !valueOf(p) ? `(${found})` : "none"));
  })),
  size: (p, k) => (valueOf(p) ? amounts(form(p, k), out(p, "as the table's columns of sizes say"))
    : small("+ size of a block", () => set(p, D.look?.size ?? k.start))),
  rocks: chosenRocks, formulas: words, words, fill, regions, metals: tables, processes: tables,
};
const formOf = (path, key) => (FORMS[key.kind] ?? form)(path, key);
/** Of each a row with what stands in a line as `init` writes it, and its further keys below. */
function tables(path, { name: list }) {
  const now = valueOf(path) ?? [];
  const isShort = k => k.is_written && ["text", "number", "choice", "column"].includes(k.kind);
  const [short, long] = [true, false].map(is => keysIn(list).filter(k => isShort(k) === is));
  const cell = (each, i, k) => [formOf([...path, i, k.name], { ...k,
    label: `${k.label} of ${each.name}`, default: k.default ?? valueOf(["economics", k.name]) }),
  example(each[k.name], k)];
  const rows = now.map((each, i) => h("tbody", h("tr", short.map(k => h("td", cell(each, i, k))),
      h("td", (now.length > 1 || list === "processes") && out(
        now.length > 1 ? [...path, i] : path, `take ${each.name} out`))),
    h("tr.second", h("td", { colSpan: 8 }, amounts(long.map(k => labelled(
      idOf([...path, i, k.name]), [k.label, h("small", ` ${unitOf(k, each[k.name])}`)],
      cell(each, i, k)))))),
    h("tr", h("td", { colSpan: 8 }, faults().filter(f => isOf(f, list, each, i)).map(faultBox)))));
  return h("div", now.length > 0 && h("table.metals", h("thead", h("tr", short.map(k => h("th",
    { title: k.help }, k.label, h("small", now.every(m => !m.currency) && ` ${unitOf(k)}`))),
  h("th"))), rows), list === "processes" ? small("+ a way to treat a block, as a heap leach",
    () => addProcess()) : D.look?.metals && small("+ a metal, or a penalty", () => addMetal()));
}

/** What a process has of the mill, and where that stands. */
const MILL = { cost: ["economics", "processing"], rocks: ["economics", "mill"],
  rate: ["shells", "mill_rate"] };
/** Adds a way to treat a block; the first is the mill as it stands there, with its rate. */
function addProcess() {
  const [path, now] = [["economics", "processes"], listNow("processes")];
  const name = free(n => `process ${n}`, now.map(each => each.name), now.length + 1);
  if (now.length) return set([...path, now.length], at => ({ name, cost: at(path).at(-1).cost }));
  const taken = Object.entries(MILL).filter(([, at]) => valueOf(at) !== undefined);
  const mill = at => Object.fromEntries(taken.map(([key, from]) => [key, at(from)]));
  return change({ path, value: at => [{ name: "mill", ...mill(at) }] },
    ...taken.map(([, from]) => ({ path: from, value: null })));
}

/** Adds a metal as `init` writes it: of a column, or the next unused. @param {string} column */
async function addMetal(column) {
  const now = listNow("metals");
  const next = Object.keys(D.look.metals).find(c => !now.some(m => m.grade === c)) ?? "GRADE";
  const more = D.look.metals[column ?? next];
  const name = free(n => more.name + (n > 1 ? n : ""), now.map(m => m.name));
  const path = ["economics", "metals", now.length];
  await set(path, { ...more, name });
  if (document.activeElement === document.body) byId(idOf([...path, "name"]))?.focus();
}

/** What is said of columns that hold a grade by their name, and that nothing uses. */
export function unused() {
  const said = JSON.stringify(valueOf(["economics"]) ?? {}, (k, v) => (k === "name" ? "" : v));
  const isUsed = c => new RegExp(`(?<!\\w)${c.replace(/\W/g, "\\$&")}(?!\\w)`).test(said);
  return (D.look?.named ?? []).filter(c => D.study.values && !isUsed(c)).map(c => h("li.look",
    "column ", h("code", c), " holds a grade and no metal uses it ",
    small(`add ${D.look.metals[c].name} of ${c}`, () => addMetal(c))));
}

/** @param {Key} key @returns {any[]} what `pitplan init` writes there, of metals for any column */
const madeUp = ({ section, name }) => (section === "metals"
  ? Object.values(D.look?.metals ?? {}).map(one => one[name])
  : [(section === "processes" ? MILL[name] ?? [] : [section, name]).reduce(stepped, D.look?.init)]);
const isExample = (now, key) => ["number", "amount", "angles"].includes(key.kind)
  && key.section !== "model" && now !== undefined && madeUp(key).some(one => same(now, one))
  && (key.kind === "angles" || !same(now, key.default));
/** A mark at an example value. @param {any} now @param {Key} key */
const example = (now, key) => isExample(now, key) && h("span.example",
  { title: "as pitplan init writes it: put your own in its place" }, "example");

/** What is still an example, before it is built of. */
export function examples() {
  const found = D.home.keys.flatMap(k => (["metals", "processes"].includes(k.section)
    ? listNow(k.section).filter(it => isExample(it[k.name], k))
      .map(it => `${k.label} of ${it.name}`)
    : isExample(valueOf([k.section, k.name]), k) ? [k.label] : []));
  return found.length > 0 && look(`Still examples, and not yours: ${found.join(", ")}.`);
}
/** Whether an error is of one of the own fields of a table in a list of them. */
const isOf = (f, section, each, i) => f.key?.length > 3 && f.key[1] === section
  && [each.name, i].includes(f.key[2]);

/** @param {any} remedy as `Remedy.as_data` has it @returns {any} a button that puts it in */
export function mend(remedy) {
  if (!remedy || !D.study?.values) return null;
  const { key: path, value: right, other, adds, when: title, also } = remedy, had = valueOf(path);
  const now = adds && Array.isArray(had) ? [...new Set([...had, ...right])] : right;
  const put = (value, more) => {
    const changes = [{ path, value }, ...more.map(it => ({ path: it.key, value: it.value }))];
    const said = changes.map(it => `${it.path.at(-1)} = ${JSON.stringify(it.value)}`).join(", ");
    return button(value === null ? `take ${path.at(-1)} out` : `put it in: ${said}`,
      () => change(...changes).then(() => document.activeElement === document.body
        && byId(idOf(placed(path)))?.focus()), { className: "small mend", title });
  };
  return [put(now, also), other !== null && put(other, [])];
}

// What an advice says to who has a command line and the file, and what to who has the desk.
const onDesk = advice => advice.replace("fewer --workers", "end other programs on that machine")
  .replace("regions = { NORTH = 38 }", 'press "+" at a region below, and type its degrees');
/** @param {any} fault as `PlanError.as_data` has it @returns {any} */
export function faultBox(fault) {
  const also = (fault.cells ?? []).map(c => `row ${number(c.row)}: ${c.text}`);
  const places = fault.places ?? []; // of a model
  return h("div.fault", { role: "alert" }, h("div", fault.said),
    also.length > 0 && h("div.quiet", `also ${also.join(", ")}`),
    places.length > 1 && h("details.places", { id: `places.${fault.said}` },
      h("summary", places.length < 500 ? "show all " : "show the first ",
        counted(places.length, "place")), h("ol", places.map(place => h("li", place)))),
    fault.try && h("div.try", `try: ${onDesk(fault.try)}`), mend(fault.remedy),
    fault.row > 0 && D.study && rowsAbout(fault));
}

function rowsAbout(fault) {
  const key = `${D.study.name} ${fault.row}`, { rows } = D.cells[key] ?? {};
  const show = () => ask("GET", `${api("cells")}?row=${fault.row}`).then(keep(D.cells, key));
  if (!rows) return button(`show row ${number(fault.row)}`, show, { className: "small row" });
  const marked = rows[0][1].indexOf(fault.column);
  return h("div.scroll", h("table.cells", rows.map(([n, cells], r) => h("tr",
    { className: n === fault.row ? "this" : "" }, h("th", n), cells.map((c, i) => h(
      (r ? "td" : "th") + (i === marked ? ".mark" : ""), c))))));
}

/** @param {Key} k @returns {any} its field */
function field(k) {
  const [path, now] = [[k.section, k.name], valueOf([k.section, k.name])];
  const isWithin = f => FORMS[k.kind] === tables
    && listNow(k.name).some((each, i) => isOf(f, k.name, each, i));
  const own = faults().filter(f => same(f.key?.slice(0, 2), path) && !isWithin(f));
  const title = `${k.label}: ${k.help.replace(/`/g, "")}`;
  return h("div", { className: `field k-${k.kind}`, id: `f.${path.join(".")}` },
    h("label.name", { htmlFor: idOf(path), title }, k.label),
    h("div.value", formOf(path, k), " ", h("small.unit", unitOf(k, now)), example(now, k)),
    own.map(faultBox));
}

/** @param {string} section @param {(name: string) => boolean} isOne @returns {any[]} its fields */
export const fields = (section, isOne = () => true) => keysIn(section).filter(k => isOne(k.name)
  && (k.name !== "mill_rate" || !listNow("processes").length || valueOf([section, k.name])))
  .map(field);

/** What is wrong here and has no field, where what has one stands, and what is wrong elsewhere. */
export function banner() {
  const isHere = f => placeOf(f.key) === here();
  const isHomeless = f => !f.key?.length || (isHere(f) && !keyOf(...f.key));
  const rest = faults().filter(f => !isHomeless(f));
  const own = rest.find(isHere)?.key;
  const errors = (place, at, all) => all.indexOf(place) === at && look(
    counted(all.filter(other => other === place).length, "error"), place === here()
      ? [" below: ", small(keyOf(...own).label, () => toField(...own))]
      : [" on ", h("a", { href: link(D.study.name, place) }, labelOf(place))]);
  return h("div", h("datalist", { id: "columns" }, columns().map(value => h("option", { value }))),
    faults().filter(isHomeless).map(faultBox), rest.map(f => placeOf(f.key)).map(errors));
}
