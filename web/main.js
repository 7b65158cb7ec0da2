// The page: signing in, and which part is shown at which address (the hash: #/folder/ID, #/object/ID, #/types/ID, #/query, #/changes, #/checkedout).

import { callAs, read } from "./calls.js";
import { checkedOutPage, folderPage } from "./browse.js";
import { typesPage } from "./definitions.js";
import { attempt, complain, go, quiet } from "./dom.js";
import { objectPage } from "./object.js";
import { changesPage, queryForName, queryPage } from "./search.js";
import { forgetFolders } from "./tree.js";
import { forget } from "./types.js";

const pages = { folder: folderPage, object: objectPage, types: typesPage, query: queryPage, changes: changesPage, checkedout: checkedOutPage };
const main = document.getElementById("main");
const signIn = document.getElementById("sign-in");
const inside = ["pages", "find", "caller"].map((id) => document.getElementById(id));
let turn = 0;

/** Shows the page of the address. What comes late, when another page was asked for, is dropped. */
async function show() {
  if (!signIn.hidden) return;
  const now = ++turn;
  const [path, asked = ""] = location.hash.slice(2).split("?");
  const [name, id] = path.split("/").map(decodeURIComponent);
  const page = Object.hasOwn(pages, name) ? pages[name] : folderPage;
  document.querySelectorAll("#pages a").forEach((it) => it.toggleAttribute("aria-current", it.hash.split("/")[1] === name));
  main.setAttribute("aria-busy", "true");
  try {
    const { title, parts, rest } = await page(id, new URLSearchParams(asked));
    if (now !== turn) return;
    document.title = title;
    main.replaceChildren(signIn, ...parts.filter(Boolean));
    const heading = main.querySelector("h1:not(#sign-in h1)");
    heading.tabIndex = -1;
    heading.focus();
    if (rest) main.append(...(await rest()).filter(Boolean));
  } catch (error) {
    if (now === turn) complain(error, () => go());
  } finally {
    if (now === turn) main.removeAttribute("aria-busy");
  }
}

/** The root is asked for: who is not known is refused there. */
async function enter(name, secret) {
  callAs(name, secret);
  await read("1", "object", { filter: "cmis:name" });
  forget();
  forgetFolders();
  document.querySelector("#caller span").textContent = name || "without a name";
  document.querySelector("#caller button").textContent = name ? "Sign out" : "Sign in";
  opened(true);
  show();
}

function opened(isIn) {
  quiet();
  signIn.hidden = isIn;
  inside.forEach((part) => { part.hidden = !isIn; });
}

function leave() {
  turn += 1;
  callAs("", "");
  forget();
  forgetFolders();
  document.title = "Documents";
  main.replaceChildren(signIn);
  document.getElementById("work").replaceChildren();
  opened(false);
  signIn.elements.name.focus();
}

signIn.addEventListener("submit", async (event) => {
  event.preventDefault();
  quiet();
  const { name, secret } = signIn.elements;
  try {
    await enter(name.value, secret.value);
    secret.value = "";
  } catch (error) {
    if (!error.isAway) secret.value = "";
    complain(error, () => signIn.requestSubmit());
  }
});
document.getElementById("stranger").addEventListener("click", () => attempt(() => enter("", "")));
document.querySelector("#caller button").addEventListener("click", leave);
document.getElementById("find").addEventListener("submit", (event) => {
  event.preventDefault();
  go(`#/query?${new URLSearchParams({ q: queryForName(event.target.elements.text.value) })}`);
});
// A file that misses the list is not opened in the place of the page.
for (const name of ["dragover", "drop"]) addEventListener(name, (event) => event.preventDefault());
// A link to the page that is shown, or was asked for when the server was away, loads it anew.
addEventListener("click", (event) => {
  const link = event.target.closest?.("a[href^='#/']");
  if (link && link.hash === location.hash && !event.ctrlKey && !event.metaKey && !event.shiftKey) go();
});
addEventListener("hashchange", () => { quiet(); show(); });
leave();
