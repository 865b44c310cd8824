// The digest in WebAssembly is that of every other host.
import assert from "node:assert/strict";
import { readFileSync } from "node:fs";
import test from "node:test";
import { digest, total } from "../../../target/js/digest.js";

test("the digest of ten thousand calls of each kind", async () => {
  const want = readFileSync(new URL("../../../crates/digest/stdout", import.meta.url), "utf8");
  const got = await digest();
  assert.equal(got, want);
  assert.equal(total(got), want.trim().split(/\s+/).at(-1));
});
