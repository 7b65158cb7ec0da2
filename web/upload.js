// Storing files and whole folders, with how far it is and a list of what was refused.

import { createDocument, propertyArguments, readRepository, write } from "./calls.js";
import { ask, button, go, h, say, work, words } from "./dom.js";
import { typeFields } from "./types.js";

const fileOf = (entry) => new Promise((resolve, reject) => { entry.file(resolve, reject); });

// A reader gives what is in a folder in parts, and nothing at the end.
async function entriesIn(folder) {
  const reader = folder.createReader();
  const all = [];
  for (;;) {
    const part = await new Promise((resolve, reject) => { reader.readEntries(resolve, reject); });
    if (!part.length) return all;
    all.push(...part);
  }
}

async function walk(entries, way, found) {
  for (const entry of entries) {
    const here = [...way, entry.name];
    if (entry.isDirectory) {
      found.folders.push(here);
      await walk(await entriesIn(entry), here, found);
    } else {
      found.files.push({ way, file: await fileOf(entry) });
    }
  }
  return found;
}

/** What was dropped: its files with the folders on their way, and its folders, each before those in it. It is asked at the drop itself, and answers later. */
export function dropped(transfer) {
  const entries = [...transfer.items].map((item) => item.webkitGetAsEntry?.()).filter(Boolean);
  return entries.length ? walk(entries, [], { folders: [], files: [] }) : Promise.resolve(chosenFiles(transfer.files));
}

/** The same of what was chosen: of a chosen folder each file tells its way. */
export function chosenFiles(list) {
  const files = [...list].map((file) => ({ way: (file.webkitRelativePath ?? "").split("/").slice(0, -1), file }));
  const folders = new Map();
  for (const { way } of files) way.forEach((_, at) => folders.set(way.slice(0, at + 1).join("/"), way.slice(0, at + 1)));
  return { folders: [...folders.values()], files };
}

const quoted = (text) => `'${text.replace(/[\\']/g, "\\$&")}'`;

// The folder of this name in another: it is made, or it is there.
async function folderIn(parent, name) {
  try {
    const values = { "cmis:name": name, "cmis:objectTypeId": "cmis:folder" };
    return (await write(parent, "createFolder", propertyArguments(values))).succinctProperties["cmis:objectId"];
  } catch (refusal) {
    if (refusal.exception !== "nameConstraintViolation") throw refusal;
    const statement = `SELECT cmis:objectId FROM cmis:folder WHERE IN_FOLDER(${quoted(parent)}) AND cmis:name = ${quoted(name)}`;
    const { results } = await readRepository("query", { statement });
    if (!results.length) throw refusal;
    return results[0].succinctProperties["cmis:objectId"];
  }
}

const AGAIN_AFTER_MS = 3000;
const pause = () => new Promise((done) => { setTimeout(done, AGAIN_AFTER_MS); });

/** What does a thing, and does it again as long as the server is away, until `isStopped`. `waiting` is told of each pause. */
const patience = (isStopped, waiting) => async (act) => {
  for (;;) {
    try { return await act(); } catch (refusal) {
      if (!refusal.isAway) throw refusal;
      waiting();
      await pause();
      if (isStopped()) throw refusal;
    }
  }
};

// The panel of a running upload: `at` tells how far it is, `refuse` adds a line, `end` says the last word. Where something was refused the panel
// stays until it is closed, or until the next upload.
function panel(total, stop) {
  const bar = h("progress", { max: Math.max(total, 1), value: 0, "aria-label": "Progress of the upload" });
  const name = h("span", { "aria-live": "off" });
  const refused = h("ul", { class: "refused" });
  const running = h("p", { class: "running" }, bar, name, button("Stop", stop));
  const element = h("section", { class: "card", "aria-label": "Upload" }, running, refused);
  document.querySelectorAll("#work .done").forEach((one) => one.remove());
  work(element);
  const end = (text) => {
    go();
    element.classList.add("done");
    running.replaceChildren(h("span", { role: "status" }, text), button("Close", () => element.remove()));
    if (refused.childElementCount) return;
    element.remove();
    say(text);
  };
  return {
    at: (sent, text) => { bar.value = sent; if (text) name.replaceChildren(h("bdi", {}, text)); },
    refuse: (text, error, note) => refused.append(h("li", {}, text, ": ", h("span", { class: "problem" }, words(error)), note)),
    end,
  };
}

const leaving = (event) => event.preventDefault();

async function storeAll(folder, { folders, files }, values) {
  let stopped = false;
  let sent = 0;
  let stored = 0;
  const { at, refuse, end } = panel(files.reduce((sum, { file }) => sum + file.size, 0), () => { stopped = true; });
  let wasAway = false;
  const patient = patience(() => stopped, () => {
    wasAway = true;
    at(sent, "The server does not answer. The upload goes on when it does.");
  });
  const ids = new Map([["", folder]]);
  const inside = (way) => {
    const id = ids.get(way.join("/"));
    if (!id) throw new Error("the folder that it is in was refused");
    return id;
  };
  addEventListener("beforeunload", leaving);
  for (const way of folders) {
    if (stopped) break;
    at(sent, way.join(" / "));
    const make = () => folderIn(inside(way.slice(0, -1)), way.at(-1));
    try { ids.set(way.join("/"), await patient(make)); } catch (error) { refuse(way.join(" / "), error); }
  }
  for (const [number, { way, file }] of files.entries()) {
    if (stopped) break;
    const what = `${number + 1} of ${files.length}: ${file.name}`;
    at(sent, what);
    wasAway = false;
    try {
      await createDocument(inside(way), { "cmis:name": file.name, ...values }, file, (part) => at(sent + part, what), patient);
      stored += 1;
    } catch (error) {
      // One whose reply was lost has taken its name perhaps.
      refuse([...way, file.name].join(" / "), error, wasAway && " (the server was away meanwhile: look whether it is stored)");
    }
    sent += file.size;
  }
  removeEventListener("beforeunload", leaving);
  end(`${stored} of ${files.length} files are stored.${stopped ? " The rest was stopped." : ""}`);
}

/** Stores files one after the other, and their folders before them. Where there are several types of documents, it asks which one, and for what that type wants. */
export async function upload(folder, found) {
  const { folders, files } = found;
  if (!folders.length && !files.length) return;
  const { parts, isPlain, given } = await typeFields("cmis:document");
  const what = files.length === 1 ? files[0].file.name : `${files.length} files`;
  const title = `Upload ${what}${folders.length ? ` in ${folders.length} folders` : ""}`;
  const isAsked = !isPlain || folders.length > 0;
  const body = [folders.length > 0 && h("p", {}, "Folders that are there already are used; files that are there already are refused."), parts];
  if (isAsked && !(await ask(title, body, "Upload", () => {}))) return;
  await storeAll(folder, found, given());
}
