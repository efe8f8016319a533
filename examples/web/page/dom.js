// Elements of the page, and its dialog.

/** @param {string} id */
export const byName = (id) => document.getElementById(id);

/** Names that are set as attributes; the others are properties of the element. */
const isAttribute = (name) => name.includes("-") || ["role", "for", "list"].includes(name);

/**
 * An element with properties, attributes, listeners (`onclick`) and children; texts stay texts.
 * @param {string} tag
 * @param {object} given
 * @param {...(Node|string|false|null|undefined)} children those that are none are left out
 */
export function el(tag, given = {}, ...children) {
  const made = document.createElement(tag);
  for (const [name, value] of Object.entries(given)) {
    if (isAttribute(name)) made.setAttribute(name, value);
    else if (name === "class") made.className = value;
    else if (name.startsWith("on")) made.addEventListener(name.slice(2), value);
    else made[name] = value;
  }
  made.append(...children.filter((child) => child !== null && child !== undefined && child !== false));
  return made;
}

export function button(words, does, given = {}) {
  return el("button", { type: "button", onclick: does, ...given }, words);
}

/**
 * A choice among words, or pairs of a value and words.
 * @param {(string|[string, string])[]} options
 * @param {?string} value
 * @param {?function(string): void} does what is done once another one is chosen
 */
export function choice(options, value, does = null, given = {}) {
  const made = el("select", { onchange: () => does?.(made.value), ...given });
  offer(made, options, value);
  return made;
}

/** Gives a choice other options. */
export function offer(select, options, value) {
  const pairs = options.map((option) => (Array.isArray(option) ? option : [option, option]));
  select.replaceChildren(...pairs.map(([word, words]) => el("option", { value: word }, words)));
  select.value = value ?? "";
}

export function checkbox(checked, does, given = {}) {
  const made = el("input", { type: "checkbox", checked, onchange: () => does(made.checked), ...given });
  return made;
}

export function labelled(words, field) {
  return el("label", {}, words, field);
}

export function row(...children) {
  return el("div", { class: "row" }, ...children);
}

export function quiet(words) {
  return el("span", { class: "quiet" }, words);
}

/** A field for a whole number. */
export function numberField(value, min, max, given = {}) {
  return el("input", { type: "number", value, min, max, required: true, ...given });
}

/**
 * Asks for fields in a dialog, and closes it once they were sent.
 * @param {string} title
 * @param {[string, string, HTMLElement][]} fields each one's name, what it asks for, and its element
 * @param {function(object): void} send is given the values by name
 * @param {HTMLElement[]} more stands behind the buttons
 */
export function ask(title, fields, send, more = []) {
  const dialog = byName("dialog");
  const valueOf = (field) => (field.type === "number" ? Number(field.value) : field.value);
  const submit = (event) => {
    event.preventDefault();
    dialog.close(); // before what is sent asks for more
    send(Object.fromEntries(fields.map(([name, , field]) => [name, valueOf(field)])));
  };
  const form = el(
    "form",
    { method: "dialog", onsubmit: submit },
    el("h2", {}, title),
    ...fields.map(([, words, field]) => labelled(words, field)),
    row(el("button", {}, "OK"), button("Cancel", () => dialog.close()), ...more),
  );
  if (dialog.open) dialog.close();
  dialog.replaceChildren(form);
  dialog.onclose = () => dialog.open || dialog.replaceChildren(); // what it showed may be a key
  dialog.showModal();
}

/** A tag out of a name that somebody typed, which isn't used yet. */
export function tagOf(name, used = []) {
  const letters = name.toLowerCase().normalize("NFKD").replace(/[^a-z0-9]+/g, "_");
  const tag = (letters.replace(/^_+|_+$/g, "") || "token").slice(0, 20);
  let [free, number] = [tag, 2];
  while (used.includes(free)) free = `${tag}_${number++}`;
  return free;
}

/** Hands a text to whoever sits there, as a file. */
export function download(name, text) {
  const file = URL.createObjectURL(new Blob([text], { type: "application/json" }));
  el("a", { href: file, download: name }).click();
  setTimeout(() => URL.revokeObjectURL(file), 10000);
}
