// Which statement showed each part of a trace.
import assert from "node:assert/strict";
import test from "node:test";
import { read } from "../../src/source.mjs";
import { shownBy } from "../../src/traces.mjs";

const TEXT = `var x : 0..3 := uniform 0..3;
vis v : 0..3 := 0;
if x > 1 { observe x; } else { skip; }
while x > 0 {
  x := x - 1; v := x;
}
observe v;
`;
const shown = (...parts) => shownBy(read(TEXT), parts);

test("guards say which way a run took", () => {
    // x is 0: the branch isn't taken, and neither is the loop.
    assert.deepEqual(shown("false", "false", "0"), [{ line: 3, part: "false", what: "if" }, { line: 4, part: "false", what: "while" }, { line: 7, part: "0", what: "observe" }]);
    // x is 2: two turns, each of which shows v.
    assert.deepEqual(shown("true", "2", "true", "1", "true", "0", "false", "0").map(({ line, what }) => `${line} ${what}`),
        ["3 if", "3 observe", "4 while", "5 v", "4 while", "5 v", "4 while", "7 observe"]);
});

test("a trace that the text doesn't have is none", () => {
    for (const parts of [[], ["false"], ["false", "false"], ["false", "false", "0", "1"], ["true", "1", "true"]]) {
        assert.equal(shown(...parts), null, parts.join());
    }
    assert.deepEqual(shownBy(read("var x : bool := true;\nskip;\n"), []), []);
});

test("an endless loop of which every turn shows something ends with the trace", () => {
    assert.equal(shownBy(read("var x : bool := true;\nwhile x { skip; }\n"), Array.from({ length: 50000 }, () => "true")), null);
});
