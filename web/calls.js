// What is said to the server: the calls of docs/PROFILE.md. Nothing here knows of the page.

const REPOSITORY = "/cmis/main";
const ROOT = "/cmis/main/root";
// The most of a file that one request carries: the server takes 16 MiB with the rest of the form. Longer files go in pieces.
const PIECE = 15 * 1024 * 1024;
// The field Authorization, in memory alone.
let authorization = null;
// How many changes were asked for: who keeps what was read knows by it that it may be old.
let changes = 0;
const names = new Set();

/** How many changes were asked for since the page was loaded. */
export const changesAsked = () => changes;

/** The names of users and groups that the replies had, in order: the server tells no list of them. */
export const namesSeen = () => [...names].sort();

/**
 * A text of JSON as data. An integer that a number of JavaScript does not hold exactly is a text of its digits; the server sends no numbers with
 * a point. What stands between quotes is passed over as one part.
 */
export function exactly(text) {
  const isHeld = (part) => part.startsWith('"') || Number.isSafeInteger(Number(part));
  return JSON.parse(text.replace(/"(?:[^"\\]+|\\.)*"|-?\d{16,}/g, (part) => (isHeld(part) ? part : `"${part}"`)));
}

const OF_PEOPLE = ["cmis:createdBy", "cmis:lastModifiedBy", "cmis:versionSeriesCheckedOutBy", "principalId"];

function notice(data) {
  if (data === null || typeof data !== "object") return;
  for (const [key, value] of Object.entries(data)) {
    const name = OF_PEOPLE.includes(key) ? value?.value ?? value : null;
    if (typeof name === "string") names.add(name);
    else notice(value);
  }
}

/** A reply as data, or null where it is empty. */
function parsed(text) {
  if (!text) return null;
  const data = exactly(text);
  notice(data);
  return data;
}

// No reply at all, or the front's own words for that: the server is away, such as while it starts anew.
const AWAY = [0, 502, 503, 504];
const NOT_READ = "The server does not answer. Try again in a moment.";
const NOT_KNOWN = "The server does not answer, so whether this was done is not known. What you typed stays here: try again in a moment.";

/** A refusal in the words of the server; or, where it is away, what that means for a reading and for a change. */
export class Refusal extends Error {
  constructor(status, body, isChange) {
    let said = {};
    try { said = JSON.parse(body); } catch { /* not from the server: a proxy's page, or nothing */ }
    const isAway = AWAY.includes(status);
    super(isAway ? (isChange ? NOT_KNOWN : NOT_READ) : said.message ?? `the server answers with status ${status}`);
    this.isAway = isAway;
    this.exception = isAway ? "" : said.exception ?? "";
  }
}

/** From now on the caller is this user, or with no name a stranger. */
export function callAs(name, secret) {
  const bytes = new TextEncoder().encode(`${name}:${secret}`);
  authorization = name ? "Basic " + btoa(String.fromCharCode(...bytes)) : null;
  names.clear();
  names.add("anyone");
  if (name) names.add(name);
}

const fields = () => ({ "X-Requested-With": "workbench", ...(authorization && { Authorization: authorization }) });

async function fetched(target, options = {}) {
  const asked = { ...options, headers: fields(), credentials: "omit", cache: "no-store" };
  const refuse = (status, body) => { throw new Refusal(status, body, options.method === "POST"); };
  const reply = await fetch(target, asked).catch(() => refuse(0, ""));
  if (!reply.ok) refuse(reply.status, await reply.text());
  return reply;
}

function target(address, selector, args) {
  const given = Object.entries({ succinct: true, ...args }).filter(([, value]) => value !== undefined && value !== null);
  return `${address}?${new URLSearchParams([["cmisselector", selector], ...given])}`;
}

/** Reads from the repository: types, queries, changes, working copies. */
export const readRepository = async (selector, args = {}) => parsed(await (await fetched(target(REPOSITORY, selector, args))).text());

/** Reads an object by its id. Names are no part of the address, so that a folder named ".." can be shown too. */
export const read = async (objectId, selector, args = {}) => parsed(await (await fetched(target(ROOT, selector, { objectId, ...args }))).text());

/** The bytes of a document, or of its rendition with this stream id. */
export const content = async (objectId, streamId) => (await fetched(target(ROOT, "content", { objectId, streamId }))).blob();

/** Properties as a form has them; null and a list without members unset. */
export function propertyArguments(values) {
  const args = {};
  Object.entries(values).forEach(([id, value], at) => {
    args[`propertyId[${at}]`] = id;
    if (Array.isArray(value)) value.forEach((one, place) => { args[`propertyValue[${at}][${place}]`] = one; });
    else if (value !== null) args[`propertyValue[${at}]`] = value;
  });
  return args;
}

/** A list as arguments that count from 0: `objectId[0]` and so on. */
export const listArguments = (name, values) => Object.fromEntries(values.map((value, at) => [`${name}[${at}]`, value]));

const given = (action, args) =>
  Object.entries({ cmisaction: action, succinct: true, ...args }).filter(([, value]) => value !== undefined && value !== null);

// Without bytes a form is encoded in the address's way: in parts, browsers would make two signs of each end of a line.
async function asked(address, action, args) {
  changes += 1;
  return parsed(await (await fetched(address, { method: "POST", body: new URLSearchParams(given(action, args)) })).text());
}

/** Changes an object; the answer, or null where there is none. */
export const write = (objectId, action, args = {}) => asked(ROOT, action, { objectId, ...args });

/** Changes types, or several objects. */
export const writeRepository = (action, args = {}) => asked(REPOSITORY, action, args);

function form(action, args, file, fileName) {
  const made = new FormData();
  for (const [name, value] of given(action, args)) made.append(name, value);
  made.append("content", file, fileName);
  return made;
}

/** A change with bytes: by XMLHttpRequest, which alone tells how much is sent. */
function sent(body, progress) {
  changes += 1;
  return new Promise((resolve, reject) => {
    const request = new XMLHttpRequest();
    request.open("POST", ROOT);
    for (const [name, value] of Object.entries(fields())) request.setRequestHeader(name, value);
    request.upload.onprogress = (event) => progress(event.loaded);
    request.onload = () => (request.status < 300 ? resolve(parsed(request.responseText)) : reject(new Refusal(request.status, request.responseText, true)));
    request.onerror = () => reject(new Refusal(0, "", true));
    request.send(body);
  });
}

const lengthOf = async (objectId) => (await read(objectId, "object", { filter: "cmis:contentStreamLength" })).succinctProperties["cmis:contentStreamLength"];

const once = (act) => act();

// The pieces after the first. One whose reply was lost is perhaps there: the length tells it.
async function append(objectId, file, progress, { patient = once, told = () => {} } = {}) {
  for (let from = PIECE; from < file.size; from += PIECE) {
    const piece = file.slice(from, from + PIECE, file.type);
    let tries = 0;
    await patient(async () => {
      tries += 1;
      if (tries > 1 && (await lengthOf(objectId)) > from) return;
      told(await sent(form("appendContent", { objectId }, piece, file.name), (done) => progress(from + done)));
    });
  }
}

/**
 * Makes a document from a file; one of which a piece was refused is removed. `progress` is told the bytes that are sent; `patient` is given each call,
 * and may do it again where the server was away.
 */
export async function createDocument(objectId, values, file, progress, patient) {
  const args = { objectId, ...propertyArguments(values) };
  const make = () => sent(form("createDocument", args, file.slice(0, PIECE, file.type), file.name), progress);
  const made = (await patient(make)).succinctProperties;
  try {
    await append(made["cmis:objectId"], file, progress, { patient });
  } catch (refusal) {
    await patient(() => write(made["cmis:objectId"], "delete"));
    throw refusal;
  }
  return made;
}

/** Puts a file in the place of a document's content. `told` is given each reply, which has the document's new change token. */
export async function setContent(objectId, changeToken, file, progress, told) {
  told(await sent(form("setContent", { objectId, changeToken }, file.slice(0, PIECE, file.type), file.name), progress));
  await append(objectId, file, progress, { told });
}

/** Gives a document a rendition: another form of it, such as a picture of its first page. */
export const addRendition = (objectId, kind, title, file, progress) => sent(form("addRendition", { objectId, kind, title }, file, file.name), progress);
