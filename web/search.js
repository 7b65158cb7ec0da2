// Queries with their rows as a table, and the change log.

import { readRepository } from "./calls.js";
import { h, pager, table } from "./dom.js";
import { label, moment, size } from "./types.js";

/** A query for documents with this text in their names. A backslash stands before what means something in a pattern. */
export function queryForName(text) {
  const pattern = text.replace(/[\\%_']/g, "\\$&");
  const columns = "cmis:name, cmis:objectId, cmis:versionLabel, cmis:contentStreamLength, cmis:lastModificationDate, cmis:lastModifiedBy";
  return `SELECT ${columns} FROM cmis:document WHERE cmis:name LIKE '%${pattern}%' ORDER BY cmis:name`;
}

const EXAMPLE = "SELECT cmis:name, cmis:objectId, cmis:creationDate FROM cmis:document WHERE cmis:createdBy = 'ann' ORDER BY cmis:creationDate DESC";

/** The page of a query: its text, and where it is asked its rows. */
export async function queryPage(_, asked) {
  const statement = asked.get("q") ?? "";
  const all = asked.has("all");
  const skip = Number(asked.get("skip") ?? 0);
  const hash = (q, searchAll, from) => `#/query?${new URLSearchParams({ q, ...(searchAll && { all: "" }), skip: from })}`;
  const text = h("textarea", { name: "q", rows: 3, required: true, spellcheck: "false", placeholder: EXAMPLE }, statement);
  const every = h("input", { type: "checkbox", checked: all });
  const submitted = (event) => {
    event.preventDefault();
    location.hash = hash(text.value, every.checked, 0);
  };
  const form = h("form", { class: "card", onsubmit: submitted },
    h("label", {}, "Query", text), h("label", { class: "choice" }, every, "all versions, not the latest alone"), h("p", {}, h("button", { class: "first" }, "Run")));
  const top = [h("h1", {}, "Query"), form];
  if (!statement) return { title: "Query", parts: top };
  const rows = async () => {
    const page = await readRepository("query", { statement, searchAllVersions: all, maxItems: 50, skipCount: skip, succinct: false });
    return [resultTable(page.results), pager(skip, page.results.length, page, (from) => hash(statement, all, from))];
  };
  return { title: "Query", parts: top, rest: rows };
}

/**
 * The rows of a query. A column that stands at its property's id is headed by the display name, each other one by its alias or query name as it was
 * asked for. The name leads to the object where the row has its id.
 */
function resultTable(results) {
  if (!results.length) return null;
  const columns = Object.keys(results[0].properties);
  const find = (row, id) => Object.values(row.properties).find((one) => one.id === id)?.value;
  const value = ({ id, type, value: it }) => {
    if (it === null || it === undefined) return "";
    if (type === "datetime" && !Array.isArray(it)) return moment(it);
    return id === "cmis:contentStreamLength" ? size(it) : [it].flat().join(", ");
  };
  const leading = columns.find((column) => results[0].properties[column].id === "cmis:name") ?? columns[0];
  const inOrder = [leading, ...columns.filter((column) => column !== leading)];
  const cell = (row, column) => {
    const said = value(row.properties[column]);
    const id = find(row, "cmis:objectId");
    return column === leading && id ? h("a", { href: `#/object/${id}` }, said || id) : said;
  };
  const head = (column) => (results[0].properties[column].id === column ? label(results[0].properties[column]) : column);
  return table("Rows", inOrder.map(head), results.map((row) => inOrder.map((column) => cell(row, column))));
}

/** The names of objects by their ids, of those that are still there: the log tells ids alone. */
async function namesOf(ids) {
  const list = ids.map((id) => `'${id}'`).join();
  const asked = ["cmis:document", "cmis:folder"].map(async (type) => {
    const statement = `SELECT cmis:objectId, cmis:name FROM ${type} WHERE cmis:objectId IN (${list})`;
    return (await readRepository("query", { statement, searchAllVersions: true, maxItems: 1000 })).results;
  });
  const rows = ids.length ? (await Promise.all(asked)).flat() : [];
  return new Map(rows.map(({ succinctProperties: row }) => [row["cmis:objectId"], row["cmis:name"]]));
}

/** The page of changes, the latest first. */
export async function changesPage(_, asked) {
  const latest = Number((await readRepository("repositoryInfo")).latestChangeLogToken);
  const until = Math.min(latest, Number(asked.get("until") ?? latest));
  const from = Math.max(1, until - 49);
  const { objects, changeLogToken } = await readRepository("contentChanges", { changeLogToken: from, maxItems: 50 });
  const changes = objects.map((one) => ({ id: one.succinctProperties["cmis:objectId"], ...one.changeEventInfo })).reverse();
  const names = await namesOf([...new Set(changes.map(({ id }) => id))]);
  const gone = new Set(changes.filter((one) => one.changeType === "deleted").map(({ id }) => id));
  const object = ({ id }) => (gone.has(id) ? `object ${id}` : h("a", { href: `#/object/${id}` }, names.get(id) ?? `object ${id}`));
  const rows = changes.map((one) => [moment(one.changeTime), one.changeType, object(one)]);
  const ways = h("nav", { class: "pager", "aria-label": "Parts of the log" },
    until < latest && h("a", { href: `#/changes?until=${until + 50}` }, "Newer"),
    h("span", {}, changes.length ? `${from} to ${changeLogToken ?? until} of ${latest}` : "No changes"),
    from > 1 && h("a", { href: `#/changes?until=${from - 1}` }, "Older"));
  return { title: "Changes", parts: [h("h1", {}, "Changes"), changes.length > 0 && table("The latest first", ["When", "What", "Object"], rows), ways] };
}
