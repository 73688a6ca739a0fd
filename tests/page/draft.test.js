import assert from "node:assert/strict";
import { test } from "node:test";
import "./document.js";
import { keepDraft, readDraft } from "../../page/src/ics309/draft.js";

const field = id => document.getElementById(id);
function store() {
  const kept = new Map();
  return { getItem: key => kept.get(key) ?? null, setItem: (key, text) => kept.set(key, text) };
}

test("what was written in the form is there when the page is loaded again", () => {
  const own = store();
  field("own-text").value = "runner 12 needs water";
  field("ics-net").value = "145.500";
  keepDraft(true, own);
  for (const id of ["own-text", "ics-net"]) field(id).value = "";
  assert.equal(readDraft(own), true);
  assert.deepEqual([field("own-text").value, field("ics-net").value],
    ["runner 12 needs water", "145.500"]);
  keepDraft(false, own);
  assert.equal(readDraft(own), false);
});
test("without a store, or with a damaged one, the form is as it is", () => {
  field("own-text").value = "a";
  const full = { getItem: () => "{", setItem() { throw new Error("full"); } };
  const strange = { getItem: () => '{"isOpen":1,"fields":{"own-text":7}}' };
  for (const it of [null, full]) keepDraft(true, it);
  for (const it of [null, full, strange, { getItem: () => "null" }])
    assert.equal(readDraft(it), false);
  assert.equal(field("own-text").value, "a");
});
