import assert from "node:assert/strict";
import { test } from "node:test";
import { fromBase64 } from "../../page/src/formats/base64.js";
import { fromBase85 } from "../../page/src/formats/base85.js";

test("base85 of any size, as Python writes it", () => {
  const text = "hello world!", written = { 0: "", 1: "Xa", 2: "Xk`", 3: "Xk}~", 4: "Xk~0{",
    5: "Xk~0{Zv", 12: "Xk~0{Zy<MXa%^NF" };
  for (const [size, it] of Object.entries(written))
    assert.equal(Buffer.from(fromBase85(it)).toString("latin1"), text.slice(0, Number(size)), it);
  assert.deepEqual([...fromBase85("|NsC0|Ns9")], Array(7).fill(255));
  assert.deepEqual([...fromBase85("0000000")], Array(5).fill(0));
});
test("base64", () => {
  assert.deepEqual([...fromBase64("/wABgA==")], [255, 0, 1, 128]);
  assert.deepEqual([...fromBase64("")], []);
});
