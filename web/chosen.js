// Several objects at once: choosing them in a list, and one change, one move or one deletion for all of them.

import { listArguments, propertyArguments, write, writeRepository } from "./calls.js";
import { ask, button, go, h, say, words } from "./dom.js";
import { picker } from "./tree.js";
import { definitionsOf, field, givenBy, label, multiple, typesBelow } from "./types.js";

const idOf = (one) => one["cmis:objectId"];

/** Boxes for a list: `box(object)` is that of an object, `all` that of all of them, and `bar` what may be done to those that are chosen. */
export function choices(objects, folder, way) {
  const boxes = new Map();
  const chosen = () => objects.filter((one) => boxes.get(idOf(one))?.checked);
  const count = h("span", { role: "status" });
  const each = (text, act, attributes) => button(text, () => act(chosen()), attributes);
  const bar = h("div", { class: "tools bar", role: "group", "aria-label": "What is chosen", hidden: true }, count,
    each("Change", changeAll), each("Move", (them) => moveAll(them, folder, way)), each("Delete", removeAll, { class: "danger" }));
  const counted = () => {
    const number = chosen().length;
    bar.hidden = !number;
    count.textContent = `${number} chosen`;
    all.checked = number > 0 && number === boxes.size;
    all.indeterminate = number > 0 && number < boxes.size;
  };
  const every = () => {
    boxes.forEach((one) => { one.checked = all.checked; });
    counted();
  };
  const all = h("input", { type: "checkbox", "aria-label": "Choose all that are shown", onchange: every });
  const box = (one) => {
    const made = h("input", { type: "checkbox", "aria-label": `Choose ${one["cmis:name"]}`, onchange: counted });
    boxes.set(idOf(one), made);
    return made;
  };
  return { box, all, bar };
}

// Does the same to each, one after the other, and tells what was refused. Where the server is away the rest is not tried.
async function inTurn(them, act, done) {
  const refused = [];
  let isAway = false;
  for (const [number, one] of them.entries()) {
    say(`${number + 1} of ${them.length}: ${one["cmis:name"]}`);
    try {
      if (isAway) throw new Error("not tried, as the server does not answer");
      await act(one);
    } catch (error) {
      isAway ||= error.isAway;
      refused.push([one["cmis:name"], words(error)]);
    }
  }
  go();
  tell(them.length - refused.length, them.length, done, refused);
}

const tell = (number, all, done, refused) => say(h("p", {}, `${number} of ${all} ${done}.`),
  h("ul", { class: "refused" }, refused.map(([name, why]) => h("li", {}, name, ": ", h("span", { class: "problem" }, why)))));

const namesOf = (them) => h("ul", { class: "names" }, them.map((one) => h("li", {}, one["cmis:name"])));

async function removeAll(them) {
  const whole = h("input", { type: "checkbox" });
  const isFolder = (one) => one["cmis:baseTypeId"] === "cmis:folder";
  const body = [h("p", {}, "They are removed with all their versions. This can't be undone."), namesOf(them),
    them.some(isFolder) && h("label", { class: "choice" }, whole, "folders with everything that is in them")];
  if (!(await ask(`Delete ${them.length} objects?`, body, "Delete", () => {}))) return;
  await inTurn(them, async (one) => {
    const left = await write(idOf(one), isFolder(one) && whole.checked ? "deleteTree" : "delete");
    if (left?.ids?.length) throw new Error(`${left.ids.length} objects in it may not be deleted`);
  }, "are deleted");
}

async function moveAll(them, folder, way) {
  const { parts, chosen } = await picker("To", way);
  if (!(await ask(`Move ${them.length} objects`, [parts], "Move here", () => {}))) return;
  await inTurn(them, (one) => write(idOf(one), "move", { sourceFolderId: folder, targetFolderId: chosen() }), "are moved");
}

/** What all of them have, may be given to all of them at once; a name is each object's own. */
async function changeAll(them) {
  const [first, ...others] = await Promise.all(them.map(definitionsOf));
  const isShared = (one) => one.updatability === "readwrite" && others.every((definitions) => definitions[one.id]);
  const shared = Object.values(first).filter((one) => isShared(one) && !["cmis:name", "cmis:secondaryObjectTypeIds"].includes(one.id));
  const fields = shared.map((one) => field({ ...one, required: false }));
  const secondary = (await typesBelow("cmis:secondary")).slice(1).map((type) => [type.id, label(type)]);
  const adding = multiple("Secondary types to add", secondary);
  const removing = multiple("Secondary types to take away", secondary);
  const body = [h("p", {}, "What is left empty stays as it is."), fields.map(({ element }) => element), adding.element, removing.element];
  let changed = [];
  const act = async () => {
    changed = await writeRepository("bulkUpdate", {
      ...listArguments("objectId", them.map(idOf)), ...listArguments("changeToken", them.map((one) => one["cmis:changeToken"])),
      ...propertyArguments(givenBy(fields)), ...listArguments("addSecondaryTypeId", adding.chosen()), ...listArguments("removeSecondaryTypeId", removing.chosen()) });
  };
  if (!(await ask(`Change ${them.length} objects`, body, "Change", act))) return;
  const ids = new Set(changed.map(({ id }) => id));
  const left = them.filter((one) => !ids.has(idOf(one)));
  go();
  tell(them.length - left.length, them.length, "are changed", left.map((one) => [one["cmis:name"], "passed over, as it may not be changed so now"]));
}
