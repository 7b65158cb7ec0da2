// The tree: a folder's page with its path, its list in parts, new folders and uploads; and what else is a list of objects.

import { propertyArguments, read, readRepository, write } from "./calls.js";
import { choices } from "./chosen.js";
import { ask, attempt, button, go, h, pager, say, table } from "./dom.js";
import { folderTree } from "./tree.js";
import { label, moment, size, typeFields, typeOf } from "./types.js";
import { chosenFiles, dropped, upload } from "./upload.js";

const LISTED = ["cmis:name", "cmis:baseTypeId", "cmis:objectTypeId", "cmis:secondaryObjectTypeIds", "cmis:contentStreamLength", "cmis:lastModificationDate",
  "cmis:lastModifiedBy", "cmis:versionLabel", "cmis:isPrivateWorkingCopy", "cmis:versionSeriesCheckedOutBy", "cmis:changeToken"];

const isFolder = (properties) => properties["cmis:baseTypeId"] === "cmis:folder";

/** What a folder is called: the root has no name of its own. */
export const folderName = (folder) => (folder["cmis:parentId"] ? folder["cmis:name"] : "Documents");

/** The address of an object's page: of a folder its list, of all others their properties. */
export const hashOf = (properties) => `#/${isFolder(properties) ? "folder" : "object"}/${properties["cmis:objectId"]}`;

export const link = (properties) =>
  h("a", { href: hashOf(properties), class: isFolder(properties) ? "folder" : "file" }, properties["cmis:name"]);

/** The way from the root to a folder. */
export async function pathTo(folderId) {
  const way = [];
  for (let id = folderId; id;) {
    const { succinctProperties: folder } = await read(id, "object", { filter: "cmis:name,cmis:baseTypeId,cmis:parentId" });
    way.unshift(folder);
    id = folder["cmis:parentId"];
  }
  return way;
}

/** Breadcrumbs: links to the folders of a way, and the name of what is shown. */
export function crumbs(way, name) {
  const links = way.map((folder) => h("li", {}, h("a", { href: hashOf(folder) }, folderName(folder))));
  return h("nav", { class: "crumbs", "aria-label": "Path" }, h("ol", {}, links, h("li", { "aria-current": "page" }, name)));
}

const titles = { "cmis:name": "Name", "cmis:contentStreamLength": "Size", "cmis:lastModificationDate": "Changed" };

/** The head of a column by which the list can be put in order, and what stands before its name. */
function orderHead(column, order, hash, before) {
  const up = order === `${column} ASC`;
  const sorted = order.startsWith(column) ? (up ? "ascending" : "descending") : null;
  return h("th", { role: "columnheader", scope: "col", "aria-sort": sorted }, before, h("a", { href: hash(0, `${column} ${up ? "DESC" : "ASC"}`) }, titles[column]));
}

/** A list of objects as a table. `head` makes the head of a column, `box` what stands before a name. */
async function listed(caption, objects, head, box = () => null) {
  const types = await Promise.all(objects.map((one) => typeOf(one["cmis:objectTypeId"])));
  const note = (one) => one["cmis:versionSeriesCheckedOutBy"] && h("span", { class: "note" }, ` checked out by ${one["cmis:versionSeriesCheckedOutBy"]}`);
  const rows = objects.map((one, at) => [
    h("span", { class: "named" }, box(one), h("span", {}, link(one), note(one))), label(types[at]), one["cmis:versionLabel"], size(one["cmis:contentStreamLength"]),
    moment(one["cmis:lastModificationDate"]), one["cmis:lastModifiedBy"]]);
  return table(caption, [head("cmis:name"), "Type", "Version", head("cmis:contentStreamLength"), head("cmis:lastModificationDate"), "By"], rows);
}

// Inputs for files that are not seen: their labels look like buttons, and the keys reach the inputs.
const chooser = (id, text, isFolder, act, kind) => {
  const chosen = () => {
    const found = chosenFiles(input.files);
    return attempt(() => act(found));
  };
  const input = h("input", { type: "file", multiple: true, webkitdirectory: isFolder, id, class: "unseen", onchange: chosen });
  return [input, h("label", { for: id, class: `button ${kind}` }, text)];
};

function folderTools(id, may) {
  const store = (found) => upload(id, found);
  return h("div", { class: "tools" },
    may.canCreateDocument && [chooser("files", "Upload files", false, store, "first"), chooser("folders", "Upload a folder", true, store, "")],
    may.canCreateFolder && button("New folder", () => newObject(id, "cmis:folder", "createFolder", "folder")),
    may.canCreateItem && button("New item", () => newObject(id, "cmis:item", "createItem", "item")),
    h("a", { class: "button", href: `#/object/${id}` }, "Properties and access"));
}

// Beside the list where there is room, else above it and closed.
async function folderSide(way) {
  const element = await folderTree(way, (node) => go(`#/folder/${node.id}`));
  return h("details", { class: "side", open: matchMedia("(min-width: 72rem)").matches }, h("summary", {}, "Folders"), h("nav", { "aria-label": "Folders" }, element));
}

/** The page of a folder. By name, folders come before documents. */
export async function folderPage(id = "1", asked) {
  const skip = Number(asked.get("skip") ?? 0);
  const orderBy = asked.get("order") ?? "cmis:name ASC";
  const [{ succinctProperties: folder, allowableActions: may }, page, way] = await Promise.all([
    read(id, "object", { includeAllowableActions: true }),
    read(id, "children", { filter: LISTED.join(), maxItems: 50, skipCount: skip, includeAllowableActions: true,
      orderBy: orderBy.replace(/^cmis:name/, "cmis:baseTypeId DESC,$&") }),
    pathTo(id)]);
  const name = folderName(folder);
  const hash = (from, order = orderBy) => `#/folder/${id}?${new URLSearchParams({ skip: from, order })}`;
  const objects = page.objects.map(({ object }) => object);
  const mayChange = ({ allowableActions: its }) => its.canUpdateProperties || its.canMoveObject || its.canDeleteObject || its.canDeleteTree;
  const open = new Map(objects.filter(mayChange).map(({ succinctProperties: one }) => [one["cmis:objectId"], one]));
  const { box, all, bar } = choices([...open.values()], id, way);
  const empty = may.canCreateDocument ? "This folder is empty. Drop files or folders here, or choose them with “Upload files”." : "Nothing that you may read is here.";
  const head = (column) => orderHead(column, orderBy, hash, column === "cmis:name" && open.size > 0 && all);
  const list = objects.length
    ? await listed(`What is in ${name}`, objects.map(({ succinctProperties: one }) => one), head, (one) => open.has(one["cmis:objectId"]) && box(one))
    : h("p", { class: "empty" }, empty);
  const body = h("section", { class: "drop", "aria-label": "List" }, bar, list, pager(skip, objects.length, page, hash));
  if (may.canCreateDocument) takeDrops(body, (transfer) => {
    const found = dropped(transfer);
    return attempt(async () => upload(id, await found));
  });
  const parts = [crumbs(way.slice(0, -1), name), h("h1", {}, name), folderTools(id, may), h("div", { class: "beside" }, await folderSide(way), body)];
  return { title: name, parts };
}

/** The page of all working copies that the caller reads. */
export async function checkedOutPage(_, asked) {
  const skip = Number(asked.get("skip") ?? 0);
  const page = await readRepository("checkedout", { filter: LISTED.join(), maxItems: 50, skipCount: skip, orderBy: "cmis:name" });
  const list = await listed("Working copies", page.objects.map(({ succinctProperties: one }) => one), (column) => titles[column]);
  return { title: "Checked out", parts: [h("h1", {}, "Checked out"), list, pager(skip, page.objects.length, page, (from) => `#/checkedout?skip=${from}`)] };
}

function takeDrops(element, act) {
  const over = (event) => {
    if (!event.dataTransfer.types.includes("Files")) return;
    event.preventDefault();
    element.classList.add("over");
  };
  element.addEventListener("dragover", over);
  element.addEventListener("dragleave", () => element.classList.remove("over"));
  element.addEventListener("drop", (event) => {
    event.preventDefault();
    element.classList.remove("over");
    act(event.dataTransfer);
  });
}

/** Makes an object without bytes in a folder. */
async function newObject(parent, baseId, action, kind) {
  const { parts, given } = await typeFields(baseId);
  const name = h("input", { name: "cmis:name", required: true });
  const act = () => write(parent, action, propertyArguments({ "cmis:name": name.value, ...given() }));
  if (await ask(`New ${kind}`, [h("label", {}, "Name", name), parts], `Make the ${kind}`, act)) {
    go();
    say(`The ${kind} ${name.value} is made.`);
  }
}
