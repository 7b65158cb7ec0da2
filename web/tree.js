// Trees by the pattern of the ARIA practices: one stop of the tab key, arrows inside. And the trees of folders that are made so.

import { changesAsked, read } from "./calls.js";
import { complain, h } from "./dom.js";

/**
 * A tree below one node. A node is `{ id, name, kind, isEnd }`; `below` tells the nodes below one by its id, and is asked anew at each opening.
 * `act` is told the node that somebody chose: by a click, Enter or the space key. `reveal` opens the way down a list of ids and marks its last.
 */
export function tree(title, root, below, act) {
  const nodes = new WeakMap();
  const shown = () => [...element.querySelectorAll("[role=treeitem]")];
  const isOpen = (item) => item.getAttribute("aria-expanded") === "true";

  const item = (node, level) => {
    const line = h("span", { class: "line" }, h("span", { class: "twist", "aria-hidden": "true" }), h("span", { class: node.kind, title: node.name }, node.name));
    const opens = node.isEnd ? null : "false";
    const made = h("li", { role: "treeitem", "aria-label": node.name, "aria-level": level, "aria-expanded": opens, tabindex: -1 }, line);
    nodes.set(made, node);
    return made;
  };

  const open = async (at) => {
    if (at.getAttribute("aria-expanded") !== "false") return;
    at.setAttribute("aria-expanded", "true");
    at.setAttribute("aria-busy", "true");
    try {
      const found = await below(nodes.get(at).id);
      const level = Number(at.getAttribute("aria-level")) + 1;
      if (!isOpen(at)) return;
      if (found.length) at.append(h("ul", { role: "group" }, found.map((node) => item(node, level))));
      else at.removeAttribute("aria-expanded");
    } catch (error) {
      at.setAttribute("aria-expanded", "false");
      complain(error, () => open(at));
    } finally {
      at.removeAttribute("aria-busy");
    }
  };

  const close = (at) => {
    at.querySelector("[role=group]")?.remove();
    at.setAttribute("aria-expanded", "false");
    if (!element.querySelector("[tabindex='0']")) stopAt(at);
  };

  // The tab key comes to one item alone.
  const stopAt = (at) => {
    shown().forEach((one) => one.setAttribute("tabindex", one === at ? 0 : -1));
    return at;
  };

  const mark = (at) => {
    shown().forEach((one) => one.setAttribute("aria-selected", one === at));
    stopAt(at);
  };

  const choose = (at) => {
    mark(at);
    act(nodes.get(at));
  };

  const beside = (at, step) => shown()[shown().indexOf(at) + step];
  const parent = (at) => at.parentElement.closest("[role=treeitem]");
  const beginsWith = (at, sign) => {
    const all = shown();
    const from = all.indexOf(at) + 1;
    return [...all.slice(from), ...all.slice(0, from)].find((one) => nodes.get(one).name.toLowerCase().startsWith(sign.toLowerCase()));
  };

  const keys = {
    ArrowDown: (at) => beside(at, 1),
    ArrowUp: (at) => beside(at, -1),
    Home: () => shown()[0],
    End: () => shown().at(-1),
    ArrowRight: (at) => (isOpen(at) ? at.querySelector("[role=treeitem]") : open(at)),
    ArrowLeft: (at) => (isOpen(at) && at.querySelector("[role=group]") ? close(at) : parent(at)),
    Enter: choose,
    " ": choose,
  };

  const pressed = (event) => {
    const at = event.target.closest("[role=treeitem]");
    if (!at || event.ctrlKey || event.altKey || event.metaKey) return;
    const act = keys[event.key] ?? (event.key.length === 1 ? (from) => beginsWith(from, event.key) : null);
    if (!act) return;
    event.preventDefault();
    const next = act(at);
    if (next instanceof Element) stopAt(next).focus();
  };

  const clicked = (event) => {
    const at = event.target.closest("[role=treeitem]");
    if (!at) return;
    if (!event.target.classList.contains("twist")) choose(at);
    else if (isOpen(at)) close(at);
    else open(at);
  };

  const top = item(root, 1);
  top.setAttribute("tabindex", 0);
  const element = h("ul", { role: "tree", "aria-label": title, class: "tree", onkeydown: pressed, onclick: clicked }, top);

  const reveal = async (ids) => {
    let at = top;
    for (const id of ids) {
      const next = id === root.id ? top : [...at.querySelectorAll("[role=treeitem]")].find((one) => nodes.get(one).id === id);
      if (!next) return;
      at = next;
      if (id !== ids.at(-1)) await open(at);
    }
    mark(at);
  };
  return { element, reveal, openTop: () => open(top) };
}

const TOP = { id: "1", name: "Documents", kind: "folder" };
const byName = (one, other) => one.name.localeCompare(other.name);

async function foldersBelow(id) {
  const below = await read(id, "folderTree", { depth: 1, filter: "cmis:name" });
  const folders = below.map((one) => one.object.object.succinctProperties);
  return folders.map((one) => ({ id: one["cmis:objectId"], name: one["cmis:name"], kind: "folder" })).sort(byName);
}

async function objectsBelow(id) {
  const page = await read(id, "children", { filter: "cmis:name,cmis:baseTypeId", maxItems: 1000, orderBy: "cmis:name" });
  const nodes = page.objects.map(({ object: { succinctProperties: one } }) => {
    const isFolder = one["cmis:baseTypeId"] === "cmis:folder";
    return { id: one["cmis:objectId"], name: one["cmis:name"], kind: isFolder ? "folder" : "file", isEnd: !isFolder };
  });
  return [...nodes.filter((one) => !one.isEnd), ...nodes.filter((one) => one.isEnd)];
}

let kept = null;

/** The folders beside a list. The tree stays as it was opened until something is changed. `way` are the folders from the root to the one shown. */
export async function folderTree(way, act) {
  const isOld = kept?.changes !== changesAsked();
  if (isOld) kept = { changes: changesAsked(), ...tree("Folders", TOP, foldersBelow, act) };
  await kept.openTop();
  await kept.reveal(way.map((one) => one["cmis:objectId"]));
  return kept.element;
}

/** What was kept of the folders is forgotten. */
export const forgetFolders = () => { kept = null; };

/** A choice of a folder, or with `all` of any object that stands in one: its parts for a form, and what is chosen. It begins at the end of the way. */
export async function picker(title, way, all = false) {
  const to = h("output", { class: "chosen" });
  let chosen = null;
  const choose = (node) => {
    chosen = node.id;
    to.replaceChildren(h("strong", {}, node.name));
  };
  const { element, reveal, openTop } = tree(title, TOP, all ? objectsBelow : foldersBelow, choose);
  await openTop();
  await reveal(way.map((one) => one["cmis:objectId"]));
  const last = way.at(-1);
  if (last && !all) choose({ id: last["cmis:objectId"], name: way.length > 1 ? last["cmis:name"] : TOP.name });
  return { parts: [h("p", {}, `${title}: `, to), h("div", { class: "picker" }, element)], chosen: () => chosen };
}
