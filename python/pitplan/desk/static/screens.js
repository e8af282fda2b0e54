// The screens: each draws itself from what is known.
import { amounts, at, button, card, chip, choice, entry, h, having, labelled, look, looks, number,
  size, small, table, tick, tip, value, when } from "./dom.js";
import { D, agreed, api, ask, byId, draw, faults, file, go, keep, link, queue, say, tab,
  valueOf } from "./desk.js";
import { CALLED, banner, examples, faultBox, fields, mend, set, unused } from "./fields.js";
import { before, boxes, byYears, chipOf, framed, linesOf, logOf, nameOf, pictures, runner, runsOf,
  years } from "./runs.js";
/** A box to tick for a value of a list. @param {any} one @param {any} own @param {string} key */
const oneOf = (id, one, own, key, label = one) => tick(id, label, own[key].includes(one),
  keep(own, key, is => having(own[key], one, is)));
/** Takes a file to the server. @param {string} how "?over=1" in place of one that is there */
async function send(dropped, path, then, how = "") {
  const line = say(`${dropped.name}, ${size(dropped.size)}, is on its way`, "on");
  const answer = await ask("PUT", path + how, dropped, { raw: true, quiet: true });
  D.dropped = answer.ok ? null : { ...answer, again: () => send(dropped, path, then, "?over=1") };
  if (answer.ok) await then(answer);
  await draw().then(() => line.remove());
}
/** A place for files. @param {string} words @param {string} ends @param {(f: File) => any} take */
function dropPlace(words, ends, take) {
  const mark = is => e => void e.currentTarget.classList.toggle("over", is); // false ends a drop
  const onchange = async e => {
    if (e.target.files.length) await take(e.target.files[0]);
    e.target.value = "";
  };
  const failed = D.dropped;
  return [h("label.drop", { ondragover: mark(true), ondragleave: mark(false), ondrop: mark(false) },
    h("b", words), h("span", `or choose one: ${ends.replaceAll(",", ", ")}`),
    h("input", { type: "file", id: "pick", accept: ends, "aria-label": words, onchange })),
  failed && [failed.errors.map(faultBox), failed.exists && button("Put it in its place",
    failed.again, { id: "over" })]];
}
/** A table in place of one that has a study leads there. @param {File} dropped */
const taken = dropped => send(dropped, at("api", "tables", dropped.name), () => (
  D.home.studies.some(s => s.name === studyOf(dropped.name))
    ? void (location.hash = link(studyOf(dropped.name))) : begin({ table: dropped.name })));
const studyOf = table => table.replace(/(\.csv)?(\.gz)?$/i, "");
async function begin(asked) {
  const answer = await ask("POST", "/api/studies", asked, { quiet: true });
  D.naming = answer.study ? null : { ...asked, ...answer };
  if (answer.study) location.hash = link(answer.study);
  else await go();
}
/** What the table's columns are, where their names aren't known: at first what looks like it. */
function naming() {
  const n = D.naming;
  n.columns = { ...n.found, ...n.near, ...n.columns };
  const box = key => labelled(`n.${key}`, CALLED[key] ?? key, choice(`n.${key}`, ["", ...n.header],
    n.columns[key] ?? "", keep(n.columns, key)));
  n.name ??= studyOf(n.table);
  const goOn = () => begin({ table: n.table, name: n.name, encoding: n.encoding,
    columns: Object.fromEntries(Object.entries(n.columns).filter(([key, name]) => name
      && name !== n.known?.[key])) });
  return card(n.table, n.errors.map(faultBox), n.header && [
    h("div.grid", D.home.keys.find(k => k.kind === "columns").choices.map(box)),
    !n.columns.tonnes && !n.columns.density && look(
      "No column is known as tonnes or density: choose one of the two, or go on and give "
      + "tonnes by a formula.")],
  boxes(n, { ...(n.asks === "encoding" && { encoding: ["encoding", { placeholder: "cp1252" }] }),
    name: ["the study's name", {}] }), button("Go on", goOn, { className: "main", id: "named" }));
}
const copy = name => ask("POST", "/api/studies", { copy: name }).then(go);
export function home() {
  const studies = D.home.studies.map(s => [h("a", { href: link(s.name) }, s.name),
    chip(...s.said ?? ["bad", "can't be read", s.errors[0].said]), number(s.blocks), number(s.pit),
    s.worth ? `${number(s.worth / 1e6, 1)} million ${s.currency}` : "", s.plan && chip(...s.plan),
    s.when && when(s.when), small("copy", () => copy(s.name), `copy ${s.name}`)]);
  const tables = D.home.tables.map(t => [t.path, size(t.bytes), when(t.when), small(
    "begin a study", () => begin({ table: t.path })), h("code.typed", t.typed)]);
  return [dropPlace("Drop a table of blocks here", ".csv,.gz", taken), D.naming && naming(),
    studies.length > 0 && card("Studies", table(["study", "how far", "blocks", "best pit, blocks",
      "worth", "plan by years", "changed", ""], studies, { words: 2 })),
    tables.length > 0 && card("Tables", table(["table", "size", "written", "", ""], tables)),
    h("p.quiet", written("home"), D.home.manual && h("a", { href: D.home.manual,
      target: "_blank" }, "The manual"))];
}
/** @param {string} name @returns {any} a text that stands in the page */
const written = name => byId(`text.${name}`)?.content.cloneNode(true);
const MODEL = ["columns", "tonnes", "units", "size", "rotation", "absent", "z"];
const paint = { by: null };
/** @param {string} src of a picture that the server draws @param {string} alt */
const drawing = (src, alt, className = "ground") => h("div.drawn", h("img", { className, alt,
  src: `${src}of=${D.study.pulse.etag}${encodeURIComponent(D.study.pulse.table)}` }));
const ground = (what, alt) => drawing(`${api("ground")}?what=${encodeURIComponent(what)}&`, alt);

function tableScreen() {
  const { look: seen, check } = D, isRead = Boolean(check?.blocks);
  const isFolded = name => !["table", ...MODEL].includes(name);
  const isOpen = faults().some(({ key }) => key?.[0] === "model" && key[1] && isFolded(key[1]));
  const paints = [...(seen?.grades ?? []), seen?.names?.rock, seen?.region].filter(Boolean);
  const by = paints.includes(paint.by) ? paint.by : paints[0];
  const blocks = isRead && `${number(check.blocks)} blocks of ${check.size.join(" x ")} on a grid of
    ${check.shape.join(" x ")}.`;
  const notes = [...unused(), ...(seen?.notes ?? []).map(n => h("li.look", n)),
    ...(check?.notes ?? []).filter(n => !n.startsWith("columns:")
      && !seen?.notes?.includes(n)).map(n => h("li", n))];
  return [banner(), h("div.two",
    h("div", card("The table", seen?.rows ? h("p", h("b", number(seen.rows)), " rows. ", blocks)
      : tip(seen ? LATER : "is looked at ..."), looks(notes), fields("model", n => n === "table")),
    card("What is what", fields("model", n => MODEL.includes(n)), seen?.differs?.length > 0 && look(
      "The table looks otherwise: ", seen.differs.map(([key, found]) => small(
        `${key} = ${JSON.stringify(found)}`, () => set(["model", key], found)))),
    h("details", { id: "folded", open: isOpen, className: isOpen ? "wrong" : "" },
      h("summary", "Holes, sub-blocks, edges, the file's spelling"), fields("model", isFolded)))),
    h("div", isRead ? [card("The ground", ground("ground", "elevation of the ground")),
      by && card(h("label", "From above: ", choice("paint", paints, paint.by, keep(paint, "by"))),
        ground(by, "from above"))]
      : card("From above", tip("There is a picture once the table is read.")))),
  seen?.rows && columnsOf(seen)];
}
/** What is in each column of the table. @param {any} seen as `work.look` tells it */
const columnsOf = ({ columns, marks }) => card("Columns",
  tip("Least, mean and greatest are of the cells with a number", marks.length > 0
    && `, without ${marks.map(m => m || "empty ones").join(", ")}`,
  "; \"no number\" counts the others."), table(["column", "is", "least", "mean", "greatest",
    "no number", "words"], columns.map(c => [c.name, h("b", c.is), ...c.told]),
  { words: 2, className: "columns" }));

const LATER = "Nothing can be said before that is put right.";
const COSTS = ["mining", "processing", "processes"];
function money() {
  const { tonnage: t, looks: all = [], forbidden, blocks } = D.check ?? {};
  const isWrong = faults().length > 0, isOther = name => !["metals", ...COSTS].includes(name);
  return [banner(), card("In the ground",
    t && [tip(t.title), table(t.names, t.rows, { className: isWrong ? "old" : "sums" })],
    forbidden !== undefined && tip(number(forbidden), " of ", number(blocks),
      " blocks may not be dug."),
    looks([...unused(), ...all.map(l => h("li.look", l.said, mend(l.remedy)))])
      || tip(isWrong ? LATER : t ? "Nothing looks wrong." : "is worked out ...")),
  card("Metals", fields("economics", n => n === "metals")),
  card("Costs", fields("economics", n => COSTS.includes(n))),
  card("Mill, and what may not be dug", fields("economics", isOther))];
}
/** The walls as they are asked for and built. @param {any} rose as `work.rose` tells it */
function walls({ names, rows, said, looks: all }) {
  const heads = names.map(name => name.replace(/^.* (built|error)$/, "$1"));
  const picture = "degrees of the walls by bearing, asked and built";
  return h("div.two.wide", card("Walls by bearing", drawing(`${api("rose.png")}?`, picture,
    "ground rose")), card("Degrees asked and built, and their error",
    table(heads, rows, { words: 0, className: "tight" }), said.map(line => h("p", line)),
    all.map(line => look(line)), tip("The bearing is that of the wall from the pit's bottom: the",
      " north wall is at 0.")));
}

const slopes = () => [banner(), card("What is asked for", fields("slopes")),
  D.rose?.rows ? walls(D.rose) : card("Walls by bearing", tip(D.rose ? LATER : "is drawn ...")),
  card("The same as a table and a picture", runner("slopes", "Write them", { what: "slopes" })),
  runsOf("slopes")];

const asks = { certificates: false };
function build() {
  const factors = D.check?.factors ?? [], { old } = D.study.state;
  return [banner(), card("Series of pits", fields("shells"),
    factors.length > 0 && tip(`${factors.length} pits, at `, factors.map(f => f / 1000).join(", "),
      " of the price. Rates and the discount are for the discounted cases, and for a plan by years",
      " that has none of its own.")), card("Run", old && look(old),
    examples(), runner("all", "Build, and find the pits", { what: "all", ...asks }, { main: true }),
    runner("build", "Build", { what: "build" }),
    runner("shells", "Find the pits", { what: "shells", ...asks }, { needs: true }),
    boxes(asks, { certificates: "with certificates, for an auditor: slower" })),
  runsOf("build", "shells", "all")];
}

const ends = { gap: null, minutes: null, mining_width: null };
const least = () => `least width for machines, in ${valueOf(["model", "units"])?.length ?? "m"}`;
const plan = () => [banner(), card("Terms of the plan", fields("schedule")),
  needed() || card("Run", boxes(ends, {
  gap: ["end within so many percent of the bound", { placeholder: "0.1" }, value],
  minutes: ["or after so many minutes", { placeholder: "30" }, value],
  mining_width: [least(), {}, value] }),
runner("schedule", "Find a plan by years", { what: "schedule", ...ends },
  { needs: true, main: true })),
(p => p && h(["good", ""].includes(p[0]) ? "p" : "p.look.before", p[2]))(D.study.state.plan),
runsOf("schedule"), pictures(f => f.path === "out/schedule-years.png"),
framed("out/schedule.html", "the plan by years in three dimensions"),
pictures(f => /^out\/schedule-[ps][^/]*\.png$/.test(f.path))];

function page() {
  const { there, old, schedule } = D.study.state;
  const shown = framed("out/pits.html", "pits in three dimensions");
  const make = there > 0 && !old && card("The page of the pits that are found",
    byYears("with the plan by years"),
    runner("make", "Make the page", { what: "page", ...years() }, { needs: true }));
  if (shown) return [before(f => f.path === "out/pits.html"), schedule && make, shown];
  return make ? [make, runsOf("page")] : tip("The page is here once the pits are found.");
}

const cut = { cut: "bench", at: null, colour: "shell" }; // at an elevation, or a row
const CUTS = { bench: "the bench at elevation", row: "along row", column: "along column" };
function cuts() {
  const isOne = f => f.path.endsWith(".png") && !f.path.startsWith("out/older/");
  const benches = (cut.cut === "bench" && D.check?.benches) || [];
  const asked = { ...cut, at: cut.at ?? benches.at(benches.length / 2) ?? 0 };
  return [before(isOne), card("A plan or a section", boxes(cut, {
    cut: ["of", Object.entries(CUTS), way => { cut.at = null; return way; }],
    at: ["at", { value: asked.at }, value],
    colour: ["coloured by", ["shell", "value", ...(D.look?.columns ?? []).map(c => c.name)]] }),
  runner("draw", "Draw", { what: "plot", ...asked }, { needs: true })), runsOf("plot").slice(0, 1),
  pictures(isOne) || tip("Pictures are here once the pits are found.")];
}

const out = { kinds: ["dxf", "vtu", "csv"], crs: "", corners: false };
const KINDS = { dxf: "CAD (dxf)", vtu: "ParaView (vtu)", csv: "spreadsheets (csv)",
  gpkg: "GIS (gpkg)", minelib: "other optimisers (minelib)" };
function files() {
  const rows = D.study.files.map(f => [f.path, size(f.bytes), when(f.when), h("a", {
    href: file(f.path, "?save=1"), download: "", "aria-label": `save ${f.path}` }, "save")]);
  return [before(f => f.path === "out/pit_by_pit.csv"),
    card("Files for other programs", amounts(Object.entries(KINDS).map(([kind, label]) => oneOf(
      `kind.${kind}`, kind, out, "kinds", label)), boxes(out, {
        crs: ["coordinate system", { className: "w9", placeholder: "EPSG:32719" }],
        corners: "cut corners" }), byYears("the mine at the end of each year, in place of pits")),
      runner("write", "Write", { what: "export", ...out, ...years() }, { needs: true }),
      runner("bundle", "Make a bundle for an auditor", { what: "bundle" }, { needs: true })),
    runsOf("export", "bundle").slice(0, 1),
    card("To take away", rows.length ? table(["file", "size", "written", ""], rows)
      : tip("Nothing yet."))];
}

const PARTS = { run: ["Build and find", build], years: ["Plan by years", plan],
  page: ["In three dimensions", page], pictures: ["Pictures", cuts], files: ["Files", files] };
const pits = (part = "run") => [h("div.tabs", Object.entries(PARTS).map(([key, [label]]) => tab(
  `part.${key}`, ["pits", key], label, key === part))), PARTS[part]?.[1]() ?? ""];
/** What stands in place of a screen that needs pits. */
const needed = () => (!D.study.state.there || D.study.state.old) && card(null, tip(
  `${D.study.state.old ? D.study.state.said[1] : "This needs proved pits"}: `,
  h("a", { href: link(D.study.name, "pits") }, "build, and find the pits"), "."));
const wanted = { factors: [], width: null };
function pushbacks() {
  const factors = [...wanted.factors].sort((a, b) => a - b);
  const marks = (D.study.state.factors ?? []).map(f => oneOf(`phase.${f}`, f, wanted, "factors"));
  return [needed() || card("Pits that end a pushback, by their factor",
    h("div.grid.narrow", marks), boxes(wanted, { width: [least(), {}, value] }),
    runner("cut", "Cut", { what: "phases", mining_width: wanted.width, factors },
      { needs: true })), runsOf("phases")];
}

const design = { design: "", as: "surface", factor: 1 };
const dropped = it => send(it, api("designs", it.name), kind => {
  Object.assign(design, { design: it.name, as: kind.as ?? "surface" });
  if (!D.study.pulse.designs.includes(it.name)) D.study.pulse.designs.push(it.name);
});
function designs() {
  const all = D.study.pulse.designs;
  if (!all.includes(design.design)) design.design = all[0] ?? "";
  const kinds = [["surface", "a surface: faces, or points x, y, z"], ["ids", "ids of blocks"]];
  return [dropPlace("Drop a designed pit here", ".dxf,.csv,.txt", dropped),
    needed() || (all.length > 0 && card("Beside the best pit", boxes(design, {
      design: ["design", all], as: ["is", kinds],
      factor: ["pit of factor", D.study.state.factors ?? [], Number] }),
    runner("compare", "Compare", { what: "compare", ...design }, { needs: true }))),
    runsOf("compare"), pictures(f => /^out\/compare-[^/]*\/.*\.png$/.test(f.path))];
}

const POINTS = "points: from 8 % to 10 % a year are 2";
const IFS = { price: [-20, 20, "percent", "prices"], recovery: [-5, 5, "percent", "recoveries"],
  mining: [-10, 10, "percent", "costs of digging"], slope: [-3, 3, "degrees", "slope angles"],
  processing: [-10, 10, "percent", "costs of treating"], discount: [-2, 2, POINTS, "discount"],
  sink: [-1, 1, "benches a year", "how fast a column of blocks sinks"] };
const chosen = { names: ["price", "recovery", "slope"] };
function whatIf() {
  const { schedule, risk } = D.study.state;
  const box = (name, i) => entry(`if.${name}.${i}`, IFS[name][i], keep(IFS[name], i, value),
    { className: "w5", "aria-label": `${IFS[name][3]} ${i ? "to" : "from"}` });
  const names = Object.keys(IFS).filter(name => name !== "sink" || years().schedule);
  const rows = names.map(name => [oneOf(`if.${name}`, name, chosen, "names", IFS[name][3]),
    box(name, 0), box(name, 1), IFS[name][2]]);
  const changes = names.filter(name => chosen.names.includes(name))
    .map(name => [name, ...IFS[name].slice(0, 2)]);
  const label = `Find the ${years().schedule ? "plans" : "pits"} of these`;
  return [needed() || [card("One thing changed at a time",
    table(["", "from", "to", ""], rows, { words: 4 }),
    byYears("a plan by years for each, in place of a pit"),
    runner("vary", label, { what: "vary", changes, ...years() }, { needs: true })),
  schedule && risk && card("The plan by years under each realisation",
    runner("risk", "Find what it is worth", { what: "risk" }, { needs: true }))],
  runsOf("vary", "risk"), pictures(f => /^out\/tornado[^/]*\.png$/.test(f.path))];
}

function history() {
  const again = async ({ number: run }, { etag } = D.study.pulse) => await agreed(`The study.toml of
    run ${run} comes in place of the one that stands there now, which is kept beside it as
    study.toml.before.`) && queue(() => ({ run, etag, keeps: true }));
  const rows = D.study.runs.map(run => [number(run.number), h("b", nameOf(run)), linesOf(run),
    [run.who, h("br"), when(run.began)], [chipOf(run), h("br"), `${number(run.seconds, 1)} s`],
    [logOf(run), h("br"), small("take its study.toml again", () => again(run))]]);
  return card("Runs of this study", rows.length ? table(["", "what", "in a terminal", "by, when",
    "how it ended", ""], rows, { words: 6, className: "runs-of" }) : tip("None yet."),
  tip("Each lies in log/desk of the study, with the study.toml of then."));
}
/** @param {string} screen @returns {any} what a planner does first on it, until there are pits */
export function guide(screen) {
  const order = ["table", "money", "slopes", "pits"], [, then] = order.slice(order.indexOf(screen));
  const isBegun = D.study.runs.some(run => ["all", "build", "shells"].includes(run.what));
  const isOwn = order.includes(screen) && !D.study.state.there && !faults().length;
  return isOwn && !isBegun && h("p.card.guide", written(screen), then
    && [" Then go on: ", tab("then", [then], screens[then].label, false)]);
}
/** All screens of a study, in the order of a working day. */
export const screens = {
  table: { label: "Table", draw: tableScreen }, money: { label: "Prices and costs", draw: money },
  slopes: { label: "Slopes", draw: slopes }, pits: { label: "Build and pits", draw: pits },
  pushbacks: { label: "Pushbacks", draw: pushbacks }, designs: { label: "Designs", draw: designs },
  vary: { label: "What if", draw: whatIf }, history: { label: "History", draw: history },
};
/** @param {string} place a screen, or a part of one @returns {string} what it is called */
export const labelOf = place => PARTS[place.split("/")[1]]?.[0] ?? screens[place].label;
