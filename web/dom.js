// How the page is made: elements from data, messages, dialogs and tables. Data become text nodes and attributes alone, never markup.

/** A text in which signs that turn the direction of writing are seen: with one of them "plan?xcod.exe" would look like "planexe.docx". */
const seen = (text) => text.replace(/[\u202a-\u202e\u2066-\u2069]/g, (sign) => `[U+${sign.charCodeAt(0).toString(16).toUpperCase()}]`);

/** An element. Attributes that begin with "on" are listeners; true is an empty attribute, false and null are none. */
export function h(tag, attributes = {}, ...children) {
  const element = document.createElement(tag);
  for (const [name, value] of Object.entries(attributes)) {
    if (name.startsWith("on")) element.addEventListener(name.slice(2), value);
    else if (value !== false && value !== null && value !== undefined) element.setAttribute(name, value === true ? "" : value);
  }
  const parts = children.flat(2).filter((child) => child !== null && child !== undefined && child !== false);
  // What can be edited stays as it is.
  element.append(...parts.map((part) => (typeof part === "string" && tag !== "textarea" ? seen(part) : part)));
  return element;
}

const place = (id) => document.getElementById(id);

/** Tells what was done. */
export const say = (...parts) => place("status").replaceChildren(h("div", {}, ...parts));

/** Shows what goes on longer than one page stands, such as an upload. */
export const work = (element) => place("work").append(element);

/** An error in the server's own words, with the exception's name before them. */
export const words = (error) => (error.exception ? `${error.exception}: ${error.message}` : error.message);

/** Tells what was refused; where the server is away, with a way to try `again`. */
export function complain(error, again) {
  const close = () => place("problem").replaceChildren();
  const retry = error.isAway && again && button("Try again", () => { close(); return again(); }, { class: "first" });
  place("problem").replaceChildren(h("p", {}, h("span", {}, words(error)), h("span", { class: "buttons" }, retry, button("Close", close))));
}

/** Does something; what is refused is told. */
export async function attempt(act) {
  try { await act(); } catch (error) { complain(error, () => attempt(act)); }
}

export function quiet() {
  place("problem").replaceChildren();
  place("status").replaceChildren();
}

/** A button that does something; while it does it cannot be pressed again, and what is refused is told. */
export function button(text, act, attributes = {}) {
  const pressed = async (event) => {
    const it = event.currentTarget;
    it.disabled = true;
    await attempt(act);
    it.disabled = false;
  };
  return h("button", { type: "button", onclick: pressed, ...attributes }, text);
}

/** Shows the page of a hash, or this page anew; what is told after it stays to be read. */
export function go(hash = location.hash) {
  if (hash !== location.hash) history.pushState(null, "", hash);
  dispatchEvent(new HashChangeEvent("hashchange"));
}

/**
 * A question. `verb` runs `act`: what is refused is told in the dialog, which stays; else it is closed, and the answer is true.
 * The answer is false where it is cancelled.
 */
export function ask(title, body, verb, act) {
  return new Promise((answered) => {
    const problem = h("div", { role: "alert", class: "problem" });
    const heading = h("h2", { id: "dialog-title" }, title);
    const yes = h("button", { class: "first" }, verb);
    let done = false;
    let acting = null;
    const acted = async () => {
      yes.disabled = true;
      problem.replaceChildren();
      try {
        await act();
        done = true;
        dialog.close();
      } catch (error) {
        problem.replaceChildren(h("p", {}, words(error)));
      }
      yes.disabled = false;
    };
    const submitted = (event) => { event.preventDefault(); acting = acted(); };
    // What was begun goes on where the dialog is left meanwhile, and its end is the answer.
    const closed = async () => { dialog.remove(); await acting; answered(done); };
    const buttons = h("p", { class: "buttons" }, yes, h("button", { type: "button", onclick: () => dialog.close() }, "Cancel"));
    const dialog = h("dialog", { "aria-labelledby": "dialog-title", onclose: closed }, h("form", { onsubmit: submitted }, heading, body, problem, buttons));
    document.body.append(dialog);
    dialog.showModal();
  });
}

/**
 * A table; on narrow screens each row becomes a card, whose cells show their head. It says its roles, since cards are tables no more.
 * `heads` are texts or cells.
 */
export function table(caption, heads, rows) {
  const names = heads.map((head) => head.textContent ?? head);
  const cell = (content, at) => h(at ? "td" : "th", at ? { role: "cell", "data-head": names[at] } : { role: "rowheader", scope: "row" }, content);
  const row = (cells) => h("tr", { role: "row" }, cells);
  return h("table", { role: "table" },
    h("caption", {}, caption),
    h("thead", { role: "rowgroup" }, row(heads.map((head) => (head.tagName ? head : h("th", { role: "columnheader", scope: "col" }, head))))),
    h("tbody", { role: "rowgroup" }, rows.map((cells) => row(cells.map(cell)))));
}

/** Which part of a list is shown, and the ways to the parts beside it. `hash` is the address of the part that skips so many. */
export function pager(skip, shown, page, hash) {
  const size = 50;
  const text = page.numItems ? `${skip + 1} to ${skip + shown} of ${page.numItems}` : "Nothing here";
  return h("nav", { class: "pager", "aria-label": "Parts of the list" },
    skip > 0 && h("a", { href: hash(Math.max(0, skip - size)), rel: "prev" }, "Previous"),
    h("span", {}, text),
    page.hasMoreItems && h("a", { href: hash(skip + shown), rel: "next" }, "Next"));
}

/** Saves bytes under a name. */
export function save(blob, name) {
  const link = h("a", { href: URL.createObjectURL(blob), download: seen(name) });
  link.click();
  setTimeout(() => URL.revokeObjectURL(link.href), 60000);
}
