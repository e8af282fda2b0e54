// Elements, and how numbers, sizes and times are written. No text becomes markup here: all of it
// comes to stand in the page as text.

/** @typedef {(v: any) => any} Take @typedef {Object<string, any>} Told */
const isSome = v => v !== undefined && v !== null && v !== false;
/** An element. A key that begins with "on" is a listener; what is none keeps an empty place.
 * @param {string} what name and classes, with dots @param {...any} parts @returns {any} */
export function h(what, ...parts) {
  const [name, ...classes] = what.split("."), e = document.createElement(name);
  if (classes.length) e.className = classes.join(" ");
  const attributes = parts[0]?.constructor === Object ? parts.shift() : {};
  for (const [key, value] of Object.entries(attributes).filter(([, v]) => isSome(v))) {
    if (key.startsWith("on")) {
      e[key] = value;
      (e.listens ??= []).push(key);
    } else if (key === "value" && name === "input") e.value = e.defaultValue = value;
    else if (key in e && key !== "list") e[key] = value;
    else e.setAttribute(key, value === true ? "" : value);
  }
  e.append(...parts.flat(9).map(part => (isSome(part) ? part : document.createComment(""))));
  return e;
}
/** @param {any[]} list @returns {ChildNode[]} its texts and elements, at one level */
export const nodes = list => [...h("div", list).childNodes];
/** Makes what is there like what was drawn anew, in place: fields keep what is being typed. */
function morph(old, fresh) {
  const isOther = ["nodeName", "id", "data"].some(key => old[key] !== fresh[key]);
  if (isOther) return old.replaceWith(fresh);
  if (!old.attributes) return undefined;
  const isTyping = old === document.activeElement && old.defaultValue !== undefined
    && old.value !== old.defaultValue;
  const isOpened = old.nodeName === "DETAILS" && old.className === fresh.className;
  for (const { name } of [...old.attributes]) {
    if (!fresh.hasAttribute(name) && name !== "open") old.removeAttribute(name);
  }
  for (const { name, value } of fresh.attributes) {
    const isKept = (isTyping && name === "value")
      || (name === "open" && isOpened); // who opened it decides
    if (!isKept && old.getAttribute(name) !== value) old.setAttribute(name, value);
  }
  for (const key of [...old.listens ?? [], ...fresh.listens ?? []]) old[key] = fresh[key] ?? null;
  old.listens = fresh.listens;
  if ("seen" in fresh && !isTyping) old.seen = fresh.seen;
  const { value } = fresh;
  like(old, [...fresh.childNodes]);
  if ("checked" in old) old.checked = fresh.checked;
  const isBox = ["INPUT", "SELECT"].includes(old.nodeName) && old.type !== "file";
  if (isBox && !isTyping && old.value !== value) old.value = value;
  return undefined;
}
/** @param {Element} parent @param {ChildNode[]} now */
export function like(parent, now) {
  const was = [...parent.childNodes];
  now.forEach((n, i) => (was[i] ? morph(was[i], n) : parent.append(n)));
  was.slice(now.length).forEach(n => n.remove());
}
/** @param {any} v @param {number} digits @returns {string} */
export const number = (v, digits = 0) => (!isSome(v) || v === "" || Number.isNaN(+v) ? ""
  : (+v).toLocaleString("en", { minimumFractionDigits: digits, maximumFractionDigits: digits }));
/** @param {number} n @param {string} what */
export const counted = (n, what) => `${number(n)} ${what}${n === 1 ? "" : "s"}`;
/** @param {number|null} bytes */
export const size = bytes => (bytes === null ? "" : bytes < 1e3 ? counted(bytes, "byte")
  : bytes < 1e5 ? `${number(bytes / 1e3, 1)} kB` : `${number(bytes / 1e6, 1)} MB`);
/** @param {number} seconds since 1970 */
export const when = seconds => new Date(seconds * 1000)
  .toLocaleString("en-GB", { dateStyle: "medium", timeStyle: "short" });
/** @param {...any} parts @returns {string} a path */
export const at = (...parts) => "/" + parts.flatMap(p => String(p).split("/"))
  .map(encodeURIComponent).join("/");
export const word = text => text.trim() || null;
/** @param {string} text @returns {any} the number that was typed; else its words, or null */
export const value = text => (Number.isNaN(+text) ? text.trim() : word(text) && +text);
export const same = (a, b) => JSON.stringify(a) === JSON.stringify(b);
/** @param {any[]} list @param {any} value @param {boolean} is @returns {any[]} with it, or not */
export const having = (list, value, is) => [...list.filter(each => each !== value),
  ...(is ? [value] : [])];
/** The first free name. @param {Take} named @param {string[]} there @param {number} n */
export const free = (named, there, n = 1) => (there.includes(named(n))
  ? free(named, there, n + 1) : named(n));
/** @param {any} text @param {any} onclick @param {Told} more */
export const button = (text, onclick, more = {}) => h("button",
  { type: "button", onclick, ...more }, text);
/** A small one; of a sign alone the title says what it does. @param {string} title */
export const small = (text, onclick, title) => button(text, onclick, { className: "small", title,
  "aria-label": text.length === 1 && title });
export const card = (title, ...children) => h("section.card", title && h("h2", title), children);
export const tip = (...text) => h("p.quiet", text);
export const look = (...text) => h("p.look", text);
/** @param {any[]} list of what should be looked at, if there is some */
export const looks = list => list.length > 0 && h("ul.looks", list);
/** @param {string} kind @param {string} text @param {string} title */
export const chip = (kind, text, title) => h("span", { className: `chip ${kind}`, title }, text);
/** @param {...any} parts boxes and words in a line */
export const amounts = (...parts) => h("div.amount", parts);
/** A table; its first `words` columns stand left. @param {any[]} names @param {any[][]} rows */
export function table(names, rows, { words = 1, className = "", rows: row } = {}) {
  const cells = (tag, list) => list.map((c, i) => h(i < words ? `${tag}.word` : tag, c));
  return h("div.scroll", { tabIndex: rows.length > 30 ? 0 : undefined },
    h("table", { className: `data ${className}` }, h("thead", h("tr", cells("th", names))),
      h("tbody", rows.map((list, r) => h("tr", row?.(r) ?? {}, cells("td", list))))));
}
/** A box to tick. @param {string} id @param {any} label @param {boolean} is @param {Take} pick */
export const tick = (id, label, is, pick) => h("label", h("input", { type: "checkbox", id,
  checked: is, onchange: e => pick(e.target.checked) }), ` ${label} `);
/** A box for a text. @param {string} id @param {any} now @param {Take} pick @param {Told} more */
export const entry = (id, now, pick, more = {}) => h("input", { id, value: now, ...more,
  onchange: e => pick(e.target.value.trim()) });
/** A list to choose from. @param {any[]} options values, or [value, words] @param {Take} pick */
export const choice = (id, options, now, pick, label) => h("select", { id, "aria-label": label,
  onchange: e => pick(e.target.value) }, options.map(o => (Array.isArray(o) ? o : [o, o]))
  .map(([value, words]) => h("option", { value, selected: value === now }, words)));
/** @param {string} id @param {string} label @param {any} box */
export const labelled = (id, label, box) => h("span.pair", h("label", { htmlFor: id }, label), box);
/** A box for a value that others may change meanwhile: what stood there when typing began goes
 * with what was typed. @param {any} seen @param {Take} read @param {Function} take */
export function box(seen, attributes, read, take) {
  const onchange = ({ target }) => {
    const [was, now] = [target.seen, read(target.value)]; // nothing is being typed any more
    Object.assign(target, { defaultValue: target.value, seen: now });
    return take(now, was);
  };
  return Object.assign(h("input", { ...attributes, onchange }), { seen });
}
