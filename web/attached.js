// What hangs on an object: the folders that it stands in, its relationships, its policies and its renditions.

import { addRendition, content, propertyArguments, read, readRepository, write, writeRepository } from "./calls.js";
import { folderName, link, pathTo } from "./browse.js";
import { ask, button, go, h, save, table } from "./dom.js";
import { picker } from "./tree.js";
import { label, option, size, typeFields, typeOf } from "./types.js";

const section = (title, list, tools) => h("section", {}, h("h2", {}, title), list, h("div", { class: "tools" }, tools));
const none = (text) => h("p", { class: "hint" }, text);

/** The folders of an object, with what takes it out of one or files it in another. */
export function foldersPart(it, may, parents) {
  const id = it["cmis:objectId"];
  const line = (folder) => h("li", {}, link({ ...folder, "cmis:name": folderName(folder) }), " ",
    may.canRemoveObjectFromFolder && button("Take out", () => takeOut(it, folder, parents.length === 1), { "aria-label": `Take out of ${folderName(folder)}` }));
  if (!may.canGetObjectParents || !(may.canAddObjectToFolder || parents.length > 1)) return null;
  const list = parents.length ? h("ul", { class: "lines" }, parents.map(line)) : none("It stands in no folder that you may read.");
  return section("Folders", list, may.canAddObjectToFolder && button("File in one more folder", () => fileIn(id)));
}

async function fileIn(id) {
  const { parts, chosen } = await picker("In", await pathTo("1"));
  if (await ask("File in one more folder", parts, "File here", () => write(id, "addObjectToFolder", { folderId: chosen() }))) go();
}

async function takeOut(it, folder, isLast) {
  const body = h("p", {}, isLast ? "It stands in no other folder that you may read: then only a search finds it." : "It stays in the other folders.");
  const act = () => write(it["cmis:objectId"], "removeObjectFromFolder", { folderId: folder["cmis:objectId"] });
  if (await ask(`Take ${it["cmis:name"]} out of ${folderName(folder)}?`, body, "Take out", act)) go();
}

// The most relationships that are shown: each asks for the name of its other end.
const MOST = 50;

/** The relationships of an object: those that it begins, and those that lead to it. */
export async function relationshipsPart(it, may, relationships) {
  const id = it["cmis:objectId"];
  const all = relationships.slice(0, MOST).map(({ succinctProperties: one }) => one);
  const other = (one) => (one["cmis:sourceId"] === id ? one["cmis:targetId"] : one["cmis:sourceId"]);
  const ends = await Promise.all(all.map((one) => read(other(one), "object", { filter: "cmis:name,cmis:baseTypeId" })));
  const types = await Promise.all(all.map((one) => typeOf(one["cmis:objectTypeId"])));
  const rows = all.map((one, at) => [link(one), label(types[at]), one["cmis:sourceId"] === id ? "to" : "from", link(ends[at].succinctProperties),
    button("Remove", () => removeRelationship(one), { "aria-label": `Remove ${one["cmis:name"]}` })]);
  const rest = relationships.length - all.length;
  const title = rest > 0 ? `From and to this object; ${rest} more are found by a query` : "From and to this object";
  const list = rows.length ? table(title, ["Name", "Type", "Direction", "Other object", "Remove"], rows) : none("None.");
  if (!rows.length && !may.canCreateRelationship) return null;
  return section("Relationships", list, may.canCreateRelationship && button("New relationship", () => newRelationship(it)));
}

async function newRelationship(it) {
  const [{ parts, given }, to] = await Promise.all([typeFields("cmis:relationship"), picker("To", await pathTo("1"), true)]);
  const name = h("input", { name: "cmis:name" });
  const id = h("input", { name: "target", "aria-description": "in the place of a choice" });
  const body = [h("label", {}, "Name", name), parts, to.parts, h("details", {}, h("summary", {}, "An object that stands in no folder"), h("label", {}, "Its id", id))];
  const act = () => {
    const target = id.value || to.chosen();
    if (!target) throw new Error("choose the object to which it leads");
    return write(it["cmis:objectId"], "createRelationship", propertyArguments({
      ...(name.value && { "cmis:name": name.value }), ...given(), "cmis:sourceId": it["cmis:objectId"], "cmis:targetId": target }));
  };
  if (await ask("New relationship", body, "Make the relationship", act)) go();
}

async function removeRelationship(one) {
  const act = () => write(one["cmis:objectId"], "delete");
  if (await ask(`Remove ${one["cmis:name"]}?`, h("p", {}, "The objects at its ends stay."), "Remove", act)) go();
}

/** The policies that are applied to an object. */
export function policiesPart(it, may, policies) {
  const id = it["cmis:objectId"];
  const all = policies.map(({ succinctProperties: one }) => one);
  const remove = async (one) => {
    const act = () => write(id, "removePolicy", { policyId: one["cmis:objectId"] });
    if (await ask(`Remove the policy ${one["cmis:name"]}?`, h("p", {}, "It is no longer applied here; the policy itself stays."), "Remove", act)) go();
  };
  const line = (one) => h("li", {}, link(one), " ", may.canRemovePolicy && button("Remove", () => remove(one), { "aria-label": `Remove the policy ${one["cmis:name"]}` }));
  if (!all.length && !may.canApplyPolicy) return null;
  const list = all.length ? h("ul", { class: "lines" }, all.map(line)) : none("None.");
  return section("Policies", list, may.canApplyPolicy && button("Apply a policy", () => applyPolicy(id, all.map((one) => one["cmis:objectId"]))));
}

/** Asks for a policy that is there, or for a new one. */
async function applyPolicy(id, applied) {
  const statement = "SELECT cmis:objectId, cmis:name FROM cmis:policy ORDER BY cmis:name";
  const { results } = await readRepository("query", { statement, maxItems: 1000 });
  const there = results.map(({ succinctProperties: one }) => one).filter((one) => !applied.includes(one["cmis:objectId"]));
  const { parts, given } = await typeFields("cmis:policy");
  const name = h("input", { name: "cmis:name" });
  const fresh = h("div", {}, h("label", {}, "Name", name), parts);
  const fit = () => { fresh.hidden = chosen.value !== ""; };
  const chosen = h("select", { name: "policy", onchange: fit }, there.map((one) => option(one["cmis:objectId"], one["cmis:name"])), option("", "a new policy"));
  fit();
  const act = async () => {
    const made = chosen.value ? null : await writeRepository("createPolicy", propertyArguments({ "cmis:name": name.value, ...given() }));
    await write(id, "applyPolicy", { policyId: chosen.value || made.succinctProperties["cmis:objectId"] });
  };
  if (await ask("Apply a policy", [h("label", {}, "Policy", chosen), fresh], "Apply", act)) go();
}

/** The renditions of a document: other forms of its content. The server has no call that removes one. */
export function renditionsPart(it, may, renditions) {
  const id = it["cmis:objectId"];
  const name = (one) => one.title || one.kind;
  const rows = renditions.map((one) => [name(one), one.kind, one.mimeType, size(one.length),
    button("Download", async () => save(await content(id, one.streamId), name(one)), { "aria-label": `Download ${name(one)}` })]);
  const isOpen = it["cmis:baseTypeId"] === "cmis:document" && may.canUpdateProperties;
  if (!rows.length && !isOpen) return null;
  const list = rows.length ? table("Other forms of the content", ["Title", "Kind", "Media type", "Size", "Download"], rows) : none("None.");
  return section("Renditions", list, isOpen && button("Add a rendition", () => newRendition(id)));
}

async function newRendition(id) {
  const kind = h("input", { name: "kind", required: true, value: "cmis:thumbnail", list: "rendition-kinds" });
  const kinds = h("datalist", { id: "rendition-kinds" }, ["cmis:thumbnail", "preview", "text"].map((value) => option(value, value)));
  const title = h("input", { name: "title", required: true });
  const file = h("input", { type: "file", required: true, name: "file" });
  const body = [h("label", {}, "Kind", kind), kinds, h("label", {}, "Title", title), h("label", {}, "File (at most 15 MiB)", file), h("p", { class: "hint" }, "A rendition stays as long as its document.")];
  const act = () => addRendition(id, kind.value, title.value, file.files[0], () => {});
  if (await ask("Add a rendition", body, "Add", act)) go();
}
