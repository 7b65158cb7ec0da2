// The page of types: the tree of them, the definition of one, and forms that make, change and remove types.

import { readRepository, writeRepository } from "./calls.js";
import { ask, button, go, h, say, table } from "./dom.js";
import { forget, integerInput, label, multiple, option, shown, typeOf, typesBelow } from "./types.js";
import { tree } from "./tree.js";

const KINDS = [["string", "text"], ["integer", "integer"], ["boolean", "yes or no"], ["datetime", "moment"], ["uri", "address"], ["id", "id"], ["html", "HTML"]];
const UPDATABILITY = [["readwrite", "always"], ["oncreate", "when it is made"], ["whencheckedout", "in a working copy"], ["readonly", "never"]];
const CONTENT = [["allowed", "allowed"], ["required", "required"], ["notallowed", "not allowed"]];
const nameIn = (list, value) => list.find(([one]) => one === value)?.[1] ?? value;

const hashOf = (id) => `#/types/${encodeURIComponent(id)}`;
const node = (type) => ({ id: type.id, name: label(type), kind: "type" });
const ALL = { id: "", name: "All types", kind: "type" };

// All pages of the types right below one, or of the base types.
async function typesRightBelow(typeId) {
  const types = [];
  for (let page = { hasMoreItems: true }; page.hasMoreItems;) {
    page = await readRepository("typeChildren", { typeId: typeId || null, maxItems: 1000, skipCount: types.length });
    types.push(...page.types);
  }
  return types;
}

async function chainOf(id) {
  const chain = [];
  for (let at = id; at;) {
    const type = await typeOf(at);
    chain.unshift(type);
    at = type.parentId;
  }
  return chain;
}

/** The page of types, or of one. */
export async function typesPage(id) {
  const chain = id ? await chainOf(id) : [];
  const { element, reveal, openTop } = tree("Types", ALL, async (at) => (await typesRightBelow(at)).map(node), ({ id: at }) => go(at ? hashOf(at) : "#/types"));
  await openTop();
  await reveal(["", ...chain.map((type) => type.id)]);
  const side = h("details", { class: "side", open: !id || matchMedia("(min-width: 72rem)").matches }, h("summary", {}, "Types"), h("nav", { "aria-label": "Types" }, element));
  const type = chain.at(-1);
  const name = type ? label(type) : "Types";
  const hint = h("p", { class: "empty" }, "A type says which properties its objects have. Choose one to see it, or to make a type below it.");
  return { title: name, parts: [h("h1", {}, name), h("div", { class: "beside" }, side, h("section", { "aria-label": "Definition" }, type ? definition(type) : hint))] };
}

function definition(type) {
  const may = type.typeMutability ?? {};
  const tools = h("div", { class: "tools" },
    may.create && button("New type below this", () => makeType(type), { class: "first" }),
    may.update && button("Change", () => changeType(type)),
    may.delete && button("Delete", () => removeType(type), { class: "danger" }));
  const yes = (value) => (value ? "yes" : "no");
  const facts = [["Id", type.id], ["Query name", type.queryName], ["Description", type.description], ["Base type", type.baseId],
    ["Objects can be made", yes(type.creatable)], ["Stands in folders", yes(type.fileable)], ["Found by queries", yes(type.queryable)],
    ["Versions", type.versionable === undefined ? "" : yes(type.versionable)], ["Content", type.contentStreamAllowed && nameIn(CONTENT, type.contentStreamAllowed)],
    ["Takes policies", yes(type.controllablePolicy)], ["Takes access entries", yes(type.controllableACL)],
    ["Sources", type.allowedSourceTypes?.join(", ")], ["Targets", type.allowedTargetTypes?.join(", ")]];
  const lines = facts.filter(([, value]) => value).map(([name, value]) => h("div", {}, h("dt", {}, name), h("dd", {}, value)));
  const properties = Object.values(type.propertyDefinitions);
  const own = properties.filter((one) => one.from === type.id);
  const above = properties.filter((one) => one.from !== type.id);
  return [tools, h("dl", {}, lines), h("section", {}, h("h2", {}, "Properties"),
    own.length > 0 ? propertyTable("Its own", own) : h("p", { class: "hint" }, "It has none of its own."),
    above.length > 0 && h("details", {}, h("summary", {}, "Those of the types above it"), propertyTable("From above", above)))];
}

function propertyTable(title, properties) {
  const limits = (one) => [one.required && "required", one.cardinality === "multi" && "several values", one.maxLength !== null && one.maxLength !== undefined && `at most ${one.maxLength} signs`,
    one.minValue !== null && one.minValue !== undefined && `at least ${one.minValue}`, one.maxValue !== null && one.maxValue !== undefined && `at most ${one.maxValue}`].filter(Boolean);
  const choice = (one) => (one.choice ?? []).map((each) => each.displayName).join(", ");
  const rows = properties.map((one) => [[label(one), " ", h("small", {}, one.id)], nameIn(KINDS, one.propertyType), limits(one).join(", "),
    nameIn(UPDATABILITY, one.updatability), choice(one), shown(one, one.defaultValue)]);
  return table(title, ["Name", "Kind", "Rules", "May be given", "Choices", "Default"], rows);
}

// An integer in a definition: as digits, since a number of JavaScript would round the great ones.
class Integer {
  constructor(text) {
    if (!/^-?(0|[1-9]\d*)$/.test(text)) throw new Error(`${text} is no integer`);
    this.text = text;
  }
  toJSON() { return `\u0000${this.text}`; }
}

/** A definition as JSON, its integers digit by digit. */
const asText = (made) => JSON.stringify(made).replace(/"\\u0000(-?\d+)"/g, "$1");

function valueFrom(kind, text) {
  if (kind === "integer") return new Integer(text);
  if (kind === "boolean") return /^(yes|true)$/.test(text);
  if (kind !== "datetime") return text;
  const moment = new Date(text).getTime();
  if (Number.isNaN(moment)) throw new Error(`${text} is no moment`);
  return moment;
}

const linesOf = (input) => input.value.split("\n").map((line) => line.trim()).filter(Boolean);
const select = (options, name) => h("select", { name }, options.map(([value, text]) => option(value, text)));
const labelled = (text, input) => h("label", {}, text, input);
const box = (text, name, checked) => {
  const input = h("input", { type: "checkbox", name, checked });
  return { input, element: h("label", { class: "choice" }, input, text) };
};
const idInput = (name) => h("input", { name, required: true, maxlength: 128, pattern: "[A-Za-z0-9_:.\\-]+", title: "letters, digits, _ : . and -" });

/** The part of a form for one property: its element, and the definition that it gives. With `isLater` the type has objects perhaps, and nothing can be required. */
function propertyPart(number, isLater) {
  const id = idInput("property-id");
  const name = h("input", { name: "property-name" });
  const kind = select(KINDS, "property-kind");
  const cardinality = select([["single", "one value"], ["multi", "several values"]], "property-cardinality");
  const updatability = select(UPDATABILITY, "property-updatability");
  const required = box("required", "property-required", false);
  const orderable = box("lists can be put in its order", "property-orderable", true);
  const choices = h("textarea", { name: "property-choices", "aria-description": "one on each line, such as g = Ground floor" });
  const open = box("other values too", "property-open", false);
  const values = h("textarea", { name: "property-default", "aria-description": "one value on each line" });
  const maxLength = integerInput(null, 1);
  const least = integerInput(null);
  const greatest = integerInput(null);
  const ofText = labelled("At most so many signs", maxLength);
  const ofInteger = [labelled("At least", least), labelled("At most", greatest)];
  const fit = () => {
    ofText.hidden = !["string", "uri", "id", "html"].includes(kind.value);
    ofInteger.forEach((one) => { one.hidden = kind.value !== "integer"; });
    orderable.element.hidden = cardinality.value === "multi";
    open.element.hidden = !choices.value.trim();
  };
  const more = h("details", {}, h("summary", {}, "Choices, limits, default"), labelled("Choices (one on each line, such as g = Ground floor)", choices), open.element, ofText, ofInteger,
    labelled("Default (one value on each line)", values));
  const element = h("fieldset", { class: "property", onchange: fit }, h("legend", {}, `Property ${number}`), labelled("Id", id), labelled("Name", name), labelled("Kind", kind),
    labelled("How many", cardinality), labelled("May be given", updatability), !isLater && required.element, orderable.element, more,
    h("button", { type: "button", "aria-label": `Take property ${number} away`, onclick: () => element.remove() }, "Take away"));
  fit();
  const limit = (input, isMeant) => (isMeant && input.value ? new Integer(input.value) : undefined);
  const given = () => {
    const choice = linesOf(choices).map((line) => {
      const [value, text = value] = line.split(/\s*=\s*/, 2);
      return { displayName: text, value: valueFrom(kind.value, value) };
    });
    return { id: id.value, displayName: name.value || undefined, propertyType: kind.value, cardinality: cardinality.value, updatability: updatability.value,
      required: !isLater && required.input.checked, orderable: cardinality.value === "single" && orderable.input.checked,
      choice: choice.length ? choice : undefined, openChoice: choice.length ? open.input.checked : undefined,
      defaultValue: linesOf(values).length ? linesOf(values).map((line) => valueFrom(kind.value, line)) : undefined,
      maxLength: limit(maxLength, !ofText.hidden), minValue: limit(least, !ofInteger[0].hidden), maxValue: limit(greatest, !ofInteger[0].hidden) };
  };
  return { element, given };
}

/** The part of a form for any number of properties. */
function propertyParts(isLater) {
  const parts = [];
  const list = h("div");
  const add = () => {
    const part = propertyPart(parts.length + 1, isLater);
    parts.push(part);
    list.append(part.element);
    part.element.querySelector("input").focus();
  };
  const given = () => parts.filter(({ element }) => element.isConnected).map((part) => part.given());
  return { parts: [list, h("p", {}, button("Add a property", add))], given: () => Object.fromEntries(given().map((one) => [one.id, one])) };
}

async function makeType(parent) {
  const id = idInput("id");
  const name = h("input", { name: "displayName" });
  const description = h("textarea", { name: "description" });
  const isOf = (baseId) => parent.baseId === baseId;
  const creatable = box("objects of it can be made", "creatable", true);
  const versionable = box("its documents have versions", "versionable", parent.versionable);
  const content = select(CONTENT, "contentStreamAllowed");
  content.value = parent.contentStreamAllowed ?? "allowed";
  const kinds = isOf("cmis:relationship") ? (await Promise.all(["cmis:document", "cmis:folder", "cmis:item"].map(typesBelow))).flat().map((type) => [type.id, label(type)]) : [];
  const sources = multiple("Types of its sources (none chosen: all)", kinds);
  const targets = multiple("Types of its targets (none chosen: all)", kinds);
  const properties = propertyParts(false);
  const body = [h("p", {}, `Below ${label(parent)}. What this type has cannot be taken away later.`), labelled("Id (such as office:contract)", id), labelled("Name", name),
    labelled("Description", description), !isOf("cmis:secondary") && creatable.element, isOf("cmis:document") && [versionable.element, labelled("Content", content)],
    sources.element, targets.element, properties.parts];
  const act = () => {
    const made = { id: id.value, baseId: parent.baseId, parentId: parent.id, displayName: name.value || undefined, description: description.value || undefined,
      creatable: !isOf("cmis:secondary") && creatable.input.checked, ...(isOf("cmis:document") && { versionable: versionable.input.checked, contentStreamAllowed: content.value }),
      ...(kinds.length && { allowedSourceTypes: sources.chosen(), allowedTargetTypes: targets.chosen() }), propertyDefinitions: properties.given() };
    return writeRepository("createType", { type: asText(made) });
  };
  if (await ask("New type", body, "Make the type", act)) {
    forget();
    go(hashOf(id.value));
    say(`The type ${name.value || id.value} is made.`);
  }
}

async function changeType(type) {
  const name = h("input", { name: "displayName", value: type.displayName });
  const description = h("textarea", { name: "description" }, type.description ?? "");
  const properties = propertyParts(true);
  const body = [labelled("Name", name), labelled("Description", description), h("p", {}, "New properties can be added; what is there stays."), properties.parts];
  const act = () => writeRepository("updateType", { type: asText({ id: type.id, baseId: type.baseId, parentId: type.parentId ?? undefined, displayName: name.value,
    description: description.value, propertyDefinitions: properties.given() }) });
  if (await ask(`Change ${label(type)}`, body, "Save", act)) {
    forget();
    go();
  }
}

async function removeType(type) {
  const body = h("p", {}, "A type of which there are objects, or types below it, stays.");
  if (!(await ask(`Delete the type ${label(type)}?`, body, "Delete", () => writeRepository("deleteType", { typeId: type.id })))) return;
  forget();
  go(type.parentId ? hashOf(type.parentId) : "#/types");
  say(`The type ${label(type)} is deleted.`);
}
