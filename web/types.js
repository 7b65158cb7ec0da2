// Types: their definitions, how values are shown, and the right input for each kind of property.

import { readRepository } from "./calls.js";
import { complain, h } from "./dom.js";

const known = new Map();

/** What was learned about types is forgotten. */
export const forget = () => known.clear();

/** A type with the property definitions of all types above it too; `from` of each is the type that has it of its own. */
export async function typeOf(typeId) {
  if (!known.has(typeId)) {
    const own = await readRepository("typeDefinition", { typeId });
    const above = own.parentId ? (await typeOf(own.parentId)).propertyDefinitions : {};
    const from = Object.fromEntries(Object.entries(own.propertyDefinitions).map(([id, one]) => [id, { ...one, from: typeId }]));
    known.set(typeId, { ...own, propertyDefinitions: { ...above, ...from, ...above } });
  }
  return known.get(typeId);
}

/** The property definitions that an object has from its type and its secondary types. */
export async function definitionsOf(properties) {
  const ids = [properties["cmis:objectTypeId"], ...(properties["cmis:secondaryObjectTypeIds"] ?? [])];
  return Object.assign({}, ...(await Promise.all(ids.map(typeOf))).map((type) => type.propertyDefinitions));
}

/** A base type and the types below it. */
export async function typesBelow(typeId) {
  const flat = (trees) => trees.flatMap((tree) => [tree.type, ...flat(tree.children ?? [])]);
  return [await typeOf(typeId), ...flat(await readRepository("typeDescendants", { typeId }))];
}

// What people call the properties that they meet most.
const CALLED = {
  "cmis:objectTypeId": "Type", "cmis:secondaryObjectTypeIds": "Secondary types", "cmis:checkinComment": "Comment", "cmis:contentStreamMimeType": "Media type",
  "cmis:contentStreamLength": "Size", "cmis:creationDate": "Created", "cmis:lastModificationDate": "Changed", "cmis:lastModifiedBy": "Changed by",
  "cmis:rm_holdIds": "Held for", "cmis:rm_expirationDate": "Kept until", "cmis:rm_startOfRetention": "Kept from",
  "cmis:rm_hold": "Hold", "cmis:rm_clientMgtRetention": "Retention" };

/** The display name; where that is the id alone, the id in words: of cmis:lastModifiedBy "Last modified by". */
export function label({ id, displayName }) {
  if (displayName && displayName !== id) return displayName;
  if (Object.hasOwn(CALLED, id)) return CALLED[id];
  const apart = id.replace(/^\w+:(contentStream)?/, "").replace(/([a-z])([A-Z])/g, "$1 $2").replaceAll("_", " ").toLowerCase();
  return apart.charAt(0).toUpperCase() + apart.slice(1);
}

/** A count of bytes, as people say it. */
export function size(bytes) {
  if (bytes === null || bytes === undefined) return "";
  if (bytes < 1024) return `${bytes} bytes`;
  return bytes < 1048576 ? `${(bytes / 1024).toFixed(1)} KiB` : `${(bytes / 1048576).toFixed(1)} MiB`;
}

/** A moment in the reader's own calendar. */
export function moment(milliseconds) {
  const date = new Date(milliseconds);
  if (Number.isNaN(date.getTime())) return String(milliseconds);
  return h("time", { datetime: date.toISOString() }, date.toLocaleString(undefined, { dateStyle: "medium", timeStyle: "short" }));
}

/** A property's value for reading. */
export function shown(definition, value) {
  if (value === null || value === undefined) return "";
  if (Array.isArray(value)) return h("ul", {}, value.map((one) => h("li", {}, shown(definition, one))));
  if (definition.propertyType === "datetime") return moment(value);
  if (definition.propertyType === "boolean") return value ? "yes" : "no";
  if (definition.id === "cmis:contentStreamLength") return size(value);
  return definition.choice?.find((choice) => choice.value === value)?.displayName ?? String(value);
}

// A moment as an input of local time has it, and back: milliseconds since 1970.
const toLocal = (milliseconds) => {
  const date = new Date(milliseconds - new Date(milliseconds).getTimezoneOffset() * 60000);
  return Number.isNaN(date.getTime()) ? null : date.toISOString().slice(0, 23);
};
const fromLocal = (text) => String(new Date(text).getTime());

export const option = (value, text, chosen) => h("option", { value, selected: chosen }, text);

function select(options, value, required) {
  const first = required ? [] : [option("", "(not set)", value === null)];
  return h("select", {}, first, options.map(([one, text]) => option(one, text, String(value) === one)));
}

function singleInput(definition, value, required) {
  const { propertyType: kind, choice, openChoice, maxLength, minValue, maxValue } = definition;
  const choices = (choice ?? []).map((one) => [String(one.value), one.displayName]);
  if (kind === "boolean") return select([["true", "yes"], ["false", "no"]], value, required);
  if (choices.length && !openChoice) return select(choices, value, required);
  if (kind === "integer") return integerInput(value, minValue, maxValue);
  if (kind === "datetime") return h("input", { type: "datetime-local", step: 0.001, value: value === null ? null : toLocal(value) });
  if (kind === "html" || definition.id === "cmis:description") return h("textarea", { maxlength: maxLength }, value ?? "");
  return h("input", { type: kind === "uri" ? "url" : "text", maxlength: maxLength, value });
}

/** An input for an integer, as text: an input for numbers would round the great ones. */
export function integerInput(value, least, greatest) {
  const bounds = [least !== null && least !== undefined && `at least ${least}`, greatest !== null && greatest !== undefined && `at most ${greatest}`];
  const said = ["digits, with a minus before them perhaps", ...bounds.filter(Boolean)].join(", ");
  return h("input", { inputmode: "numeric", pattern: "-?(0|[1-9][0-9]*)", title: said, "aria-description": said, value });
}

function manyInput({ choice, openChoice }, values) {
  if (choice?.length && !openChoice) {
    return h("select", { multiple: true }, choice.map((one) => option(String(one.value), one.displayName, values.includes(one.value))));
  }
  return h("textarea", { "aria-description": "one value on each line" }, values.join("\n"));
}

function inputsValue(input, { propertyType: kind, cardinality }) {
  if (cardinality === "multi") {
    return input.tagName === "SELECT" ? [...input.selectedOptions].map((one) => one.value) : input.value.split("\n").filter((line) => line);
  }
  if (input.value === "") return null;
  return kind === "datetime" ? fromLocal(input.value) : input.value;
}

/** A row of a form for a property: its element, its id, and `given`, which is what the input says now, or undefined where nothing was changed. */
export function field(definition, value) {
  const many = definition.cardinality === "multi";
  const input = many ? manyInput(definition, value ?? []) : singleInput(definition, value ?? null, definition.required);
  input.name = definition.id;
  input.required = definition.required;
  const marks = [definition.required && "required", many && input.tagName === "TEXTAREA" && "one on each line"].filter(Boolean).join(", ");
  const before = JSON.stringify(inputsValue(input, definition));
  const isNew = value === undefined;
  const given = () => {
    const now = inputsValue(input, definition);
    return JSON.stringify(now) === before && (!isNew || now === null || now.length === 0) ? undefined : now;
  };
  const name = [label(definition), marks && h("small", {}, ` (${marks})`)];
  return { id: definition.id, given, element: h("label", { title: definition.description || null }, name, input) };
}

/** What a form's fields give, by ids. */
export const givenBy = (fields) => Object.fromEntries(fields.map(({ id, given }) => [id, given()]).filter(([, value]) => value !== undefined));

/** A choice of several: its element, and what is chosen. */
export function multiple(text, options, values = []) {
  const select = h("select", { multiple: true, size: Math.min(5, Math.max(2, options.length)) }, options.map(([value, name]) => option(value, name, values.includes(value))));
  return { element: options.length > 0 && h("label", {}, text, select), chosen: () => [...select.selectedOptions].map((one) => one.value) };
}

const ASKED_APART = ["cmis:name", "cmis:objectTypeId", "cmis:secondaryObjectTypeIds", "cmis:allowedChildObjectTypeIds", "cmis:sourceId", "cmis:targetId"];

/** The part of a form that asks for a type below a base type, and for what an object of it may be given at its creation, but for its name. */
export async function typeFields(baseId) {
  const types = (await typesBelow(baseId)).filter((type) => type.creatable);
  const rest = h("div");
  let fields = [];
  const choose = async () => {
    const { propertyDefinitions } = await typeOf(chosen.value);
    const left = Object.values(propertyDefinitions).filter((one) => ["readwrite", "oncreate"].includes(one.updatability) && !ASKED_APART.includes(one.id));
    fields = left.map((one) => field(one));
    rest.replaceChildren(...fields.map(({ element }) => element));
  };
  const chosen = h("select", { name: "type", onchange: () => choose().catch(complain) }, types.map((type) => option(type.id, label(type))));
  if (types.length) await choose();
  const given = () => ({ "cmis:objectTypeId": chosen.value, ...givenBy(fields) });
  return { parts: [types.length > 1 && h("label", {}, "Type", chosen), rest], isPlain: types.length === 1, given };
}
