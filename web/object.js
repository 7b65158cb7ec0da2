// The page of an object: what may be done to it, its properties, its versions, and who may do what.

import { foldersPart, policiesPart, relationshipsPart, renditionsPart } from "./attached.js";
import { content, namesSeen, propertyArguments, read, setContent, write } from "./calls.js";
import { ask, button, go, h, save, say, table } from "./dom.js";
import { crumbs, folderName, hashOf, pathTo } from "./browse.js";
import { picker } from "./tree.js";
import { definitionsOf, field, givenBy, label, moment, shown, size, typeOf, typesBelow } from "./types.js";

const LEVELS = [["cmis:read", "read"], ["cmis:write", "write"], ["cmis:all", "all"]];
// What people ask for first; all else is shown on demand.
const FIRST = ["name", "description", "policyText", "sourceId", "targetId", "objectTypeId", "versionLabel", "checkinComment", "contentStreamFileName", "contentStreamMimeType",
  "contentStreamLength", "createdBy", "creationDate", "lastModifiedBy", "lastModificationDate"].map((name) => `cmis:${name}`);
const levelName = (permission) => LEVELS.find(([id]) => id === permission)?.[1] ?? permission;

/** The page of an object. */
export async function objectPage(id) {
  const object = await read(id, "object", {
    includeAllowableActions: true, includeACL: true, includeRelationships: "both", includePolicyIds: true, renditionFilter: "*" });
  const { succinctProperties: it, allowableActions: may, acl } = object;
  const isDocument = it["cmis:baseTypeId"] === "cmis:document";
  const isCopy = it["cmis:isPrivateWorkingCopy"];
  const [definitions, versions, type, policies, relationships] = await Promise.all([
    definitionsOf(it), isDocument ? read(id, "versions") : [], typeOf(it["cmis:objectTypeId"]),
    object.policyIds?.ids?.length ? read(id, "policies") : [], relationshipsPart(it, may, object.relationships ?? [])]);
  // A working copy stands in no folder; its path is that of the version beside it.
  const filed = isCopy ? versions[1]?.succinctProperties["cmis:objectId"] : id;
  // With their access lists: who may read the folder is offered where a name is asked for.
  const folders = may.canGetObjectParents && filed ? await read(filed, "parents", { filter: "cmis:name,cmis:parentId,cmis:baseTypeId", includeACL: true }) : [];
  const parents = folders.map((one) => one.object.succinctProperties);
  const way = parents.length ? await pathTo(parents[0]["cmis:objectId"]) : [];
  const parts = [
    crumbs(way, it["cmis:name"]), h("h1", {}, it["cmis:name"]), standing(it), tools(it, may, definitions, parents),
    await picture(it), propertiesPart(it, definitions, label(type)),
    versions.length > 0 && versionsPart(id, versions), accessPart(it, acl, may), foldersPart(it, may, parents), relationships,
    policiesPart(it, may, policies), renditionsPart(it, may, object.renditions ?? [])];
  return { title: it["cmis:name"], parts };
}

/** A sentence about check-out and versions, where there is something to say. */
function standing(it) {
  const note = (...said) => h("p", { class: "note" }, ...said);
  if (it["cmis:isPrivateWorkingCopy"]) return note("This is a working copy. Others see the last version until it is checked in.");
  const copy = it["cmis:versionSeriesCheckedOutId"];
  if (it["cmis:isVersionSeriesCheckedOut"]) {
    return note(`Checked out by ${it["cmis:versionSeriesCheckedOutBy"] ?? "somebody"}. `, copy && h("a", { href: `#/object/${copy}` }, "The working copy"));
  }
  return it["cmis:isLatestVersion"] === false && note("This is an older version.");
}

/** Pictures are shown, as bytes of a picture alone: nothing in them runs. */
async function picture(it) {
  const isPicture = /^image\//.test(it["cmis:contentStreamMimeType"] ?? "") && it["cmis:contentStreamLength"] < 4194304;
  if (!isPicture) return null;
  const src = URL.createObjectURL(await content(it["cmis:objectId"]));
  return h("img", { class: "picture", alt: `Picture of ${it["cmis:name"]}`, src, onload: () => URL.revokeObjectURL(src) });
}

const download = async (it) => save(await content(it["cmis:objectId"]), it["cmis:contentStreamFileName"] || it["cmis:name"]);

/** The buttons, each where the server says that it may be pressed. */
function tools(it, may, definitions, parents) {
  const id = it["cmis:objectId"];
  const checkOut = async () => {
    const copy = (await write(id, "checkOut")).succinctProperties;
    go(hashOf(copy));
  };
  return h("div", { class: "tools" },
    may.canGetChildren && h("a", { class: "button", href: `#/folder/${id}` }, "Open the folder"),
    may.canGetContentStream && button("Download", () => download(it), { class: may.canCheckIn ? null : "first" }),
    may.canCheckOut && button("Check out", checkOut),
    may.canCheckIn && button("Check in", () => checkIn(it), { class: "first" }),
    may.canCancelCheckOut && button("Cancel the check-out", () => cancelCheckOut(it)),
    may.canUpdateProperties && button("Edit properties", () => edit(it, definitions)),
    may.canSetContentStream && button("Replace the content", () => replaceContent(it)),
    may.canMoveObject && parents.length > 0 && button("Move", () => move(it, parents)),
    may.canDeleteObject && button("Delete", () => remove(it, may, parents), { class: "danger" }));
}

function propertiesPart(it, definitions, typeName) {
  const set = ({ id }) => it[id] !== null && it[id] !== undefined;
  const own = Object.values(definitions).filter((one) => !one.id.startsWith("cmis:") || one.id.startsWith("cmis:rm_"));
  const first = [...FIRST.map((id) => definitions[id]).filter(Boolean), ...own];
  const rest = Object.values(definitions).filter((one) => !first.includes(one));
  const line = (one) => h("div", {}, h("dt", { title: one.id }, label(one)), h("dd", {}, one.id === "cmis:objectTypeId" ? typeName : shown(one, it[one.id])));
  return h("section", {}, h("h2", {}, "Properties"), h("dl", {}, first.filter(set).map(line)),
    h("details", {}, h("summary", {}, "All properties"), h("dl", {}, rest.filter(set).map(line))));
}

function versionsPart(id, versions) {
  const line = ({ succinctProperties: one }) => {
    const name = one["cmis:isPrivateWorkingCopy"] ? "working copy" : one["cmis:versionLabel"] ?? one["cmis:objectId"];
    return [one["cmis:objectId"] === id ? h("strong", {}, name, " (shown here)") : h("a", { href: hashOf(one) }, name),
      one["cmis:checkinComment"], size(one["cmis:contentStreamLength"]), moment(one["cmis:creationDate"]), one["cmis:createdBy"],
      one["cmis:contentStreamId"] && button("Download", () => download(one), { "aria-label": `Download version ${name}` })];
  };
  return h("section", {}, h("h2", {}, "Versions"), table("From the latest to the first", ["Version", "Comment", "Size", "Made", "By", "Content"], versions.map(line)));
}

function accessPart(it, acl, may) {
  const id = it["cmis:objectId"];
  const entries = (acl?.aces ?? []).flatMap((entry) => entry.permissions.map((permission) => [entry.principal.principalId, permission]));
  const line = ([principal, permission]) => [principal, levelName(permission),
    may.canApplyACL && button("Remove", () => removeEntry(id, principal, permission), { "aria-label": `Remove ${levelName(permission)} of ${principal}` })];
  const list = entries.length ? table("Users and groups", ["Who", "May", "Change"], entries.map(line)) : h("p", {}, "Nobody but the administrator.");
  return h("section", {}, h("h2", {}, "Access"), list, may.canApplyACL && button("Give access", () => addEntry(id)));
}

async function addEntry(id) {
  const who = h("input", { name: "principal", required: true, list: "names", autocomplete: "off" });
  const names = h("datalist", { id: "names" }, namesSeen().map((name) => h("option", { value: name })));
  const level = h("select", { name: "permission" }, LEVELS.map(([value, text]) => h("option", { value }, text)));
  const body = [h("label", {}, "User or group (“anyone” for everybody)", who), names, h("label", {}, "May", level)];
  const act = () => write(id, "applyACL", { "addACEPrincipal[0]": who.value, "addACEPermission[0][0]": level.value });
  if (await ask("Give access", body, "Give access", act)) go();
}

async function removeEntry(id, principal, permission) {
  const body = h("p", {}, `${principal} will no longer have “${levelName(permission)}” here.`);
  const act = () => write(id, "applyACL", { "removeACEPrincipal[0]": principal, "removeACEPermission[0][0]": permission });
  if (await ask("Remove access", body, "Remove", act)) go();
}

async function edit(it, definitions) {
  const open = it["cmis:isPrivateWorkingCopy"] ? ["readwrite", "whencheckedout"] : ["readwrite"];
  const secondary = (await typesBelow("cmis:secondary")).slice(1).map((type) => ({ value: type.id, displayName: label(type) }));
  const asChoice = (one) => (one.id === "cmis:secondaryObjectTypeIds" ? { ...one, choice: secondary, openChoice: false } : one);
  const { "cmis:name": name, ...others } = definitions;
  const fields = [name, ...Object.values(others)].filter((one) => open.includes(one?.updatability)).map((one) => field(asChoice(one), it[one.id]));
  const act = () => {
    const values = givenBy(fields);
    if (!Object.keys(values).length) return null;
    return write(it["cmis:objectId"], "update", { changeToken: it["cmis:changeToken"], ...propertyArguments(values) });
  };
  if (await ask("Edit properties", fields.map(({ element }) => element), "Save", act)) go();
}

/** The input for a file, and what puts that file in the place of an object's content. */
function fileInput(it, text, required) {
  const input = h("input", { type: "file", required });
  const bar = h("progress", { max: 1, value: 0, hidden: true, "aria-label": "Progress" });
  // A working copy has one writer, and what was begun there is done again without a token where its reply was lost.
  let token = it["cmis:isPrivateWorkingCopy"] ? null : it["cmis:changeToken"];
  let stored = null;
  const told = ({ succinctProperties: now }) => { token &&= now["cmis:changeToken"]; };
  const put = async () => {
    const file = input.files[0];
    if (!file || file === stored) return;
    bar.hidden = false;
    await setContent(it["cmis:objectId"], token, file, (sent) => { bar.value = sent / Math.max(file.size, 1); }, told);
    stored = file;
  };
  return { parts: [h("label", {}, text, input), bar], put };
}

async function replaceContent(it) {
  const { parts, put } = fileInput(it, "File", true);
  if (await ask("Replace the content", [h("p", {}, "This version is changed; no new version is made."), parts], "Replace", put)) go();
}

async function checkIn(it) {
  const { parts, put } = fileInput(it, "New content (without a file the working copy's content stays)", false);
  const comment = h("textarea", { name: "comment" });
  const kind = (value, text) => h("label", { class: "choice" }, h("input", { type: "radio", name: "major", value, checked: value === "true" }), text);
  const kinds = h("fieldset", {}, h("legend", {}, "Kind of version"), kind("true", "major"), kind("false", "minor"));
  const act = async () => {
    await put();
    const major = kinds.querySelector("input:checked").value;
    await write(it["cmis:objectId"], "checkIn", { major, checkinComment: comment.value || null });
  };
  if (await ask(`Check in ${it["cmis:name"]}`, [parts, h("label", {}, "Comment", comment), kinds], "Check in", act)) {
    go();
    say("Checked in.");
  }
}

async function cancelCheckOut(it) {
  const act = () => write(it["cmis:objectId"], "cancelCheckOut");
  if (await ask("Cancel the check-out", h("p", {}, "The working copy and what was changed in it are lost."), "Cancel the check-out", act)) {
    go(it["cmis:versionSeriesId"] === it["cmis:objectId"] ? "#/checkedout" : `#/object/${it["cmis:versionSeriesId"]}`);
  }
}

async function move(it, parents) {
  const source = h("select", {}, parents.map((one) => h("option", { value: one["cmis:objectId"] }, folderName(one))));
  const { parts, chosen } = await picker("To", await pathTo(parents[0]["cmis:objectId"]));
  const act = () => write(it["cmis:objectId"], "move", { sourceFolderId: source.value, targetFolderId: chosen() });
  const from = parents.length > 1 && h("label", {}, "Out of", source);
  if (await ask(`Move ${it["cmis:name"]}`, [from, parts], "Move here", act)) go();
}

async function remove(it, may, parents) {
  const isFolder = it["cmis:baseTypeId"] === "cmis:folder";
  const whole = h("input", { type: "checkbox" });
  const asked = isFolder ? "The folder is removed." : it["cmis:isPrivateWorkingCopy"] ? "The working copy is removed." : "The document and all its versions are removed.";
  const body = [h("p", {}, `${asked} This can't be undone.`), isFolder && may.canDeleteTree && h("label", { class: "choice" }, whole, "with everything that is in it")];
  let left = null;
  const act = async () => { left = await write(it["cmis:objectId"], whole.checked ? "deleteTree" : "delete"); };
  if (!(await ask(`Delete ${it["cmis:name"]}?`, body, "Delete", act))) return;
  if (left?.ids?.length) go();
  else go(parents.length ? hashOf(parents[0]) : "#/folder/1");
  say(left?.ids?.length ? `${left.ids.length} objects are left, since they may not be deleted.` : `${it["cmis:name"]} is deleted.`);
}
