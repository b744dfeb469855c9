// Logarithms in bits: exact where they are fractions, and else near to what is worked out by hand.
import assert from "node:assert/strict";
import test from "node:test";
import { bitsText, entropy, leakageText, log2, shannon } from "../../src/bits.mjs";
import { fractionOf, printed } from "../../src/fractions.mjs";

const fraction = (text) => fractionOf(text);
const isNear = (a, b, what) => assert.ok(Math.abs(a - b) <= Math.abs(b) * 1e-12, `${what}: ${a} and not ${b}`);

test("powers of two have whole logarithms, of any size", () => {
    for (const [text, right] of [["1", 0], ["2", 1], ["1/8", -3], [`${2n ** 200n}`, 200], [`1/${2n ** 1100n}`, -1100]]) {
        const { about, exact } = log2(fraction(text));
        assert.deepEqual([about, printed(exact)], [right, String(right)], text);
    }
});

test("other logarithms are near, also where numbers are huge or a quotient is near 1", () => {
    isNear(log2(fraction("3")).about, 1.584962500721156, "3");
    isNear(log2(fraction("2/3")).about, -0.5849625007211562, "2/3");
    isNear(log2(fraction("3/4")).about, -0.41503749927884376, "3/4");
    // 3^700 passes what the engine's own numbers hold.
    isNear(log2({ n: 3n ** 700n, d: 1n }).about, 700 * 1.584962500721156, "3^700");
    isNear(log2({ n: 1n, d: 3n ** 700n }).about, -700 * 1.584962500721156, "1/3^700");
    // ln(1 + e) is e - e²/2 and so on: 1/ln 2 times 10^-18.
    isNear(log2({ n: 10n ** 18n + 1n, d: 10n ** 18n }).about, 1.4426950408889634e-18, "1 + 10^-18");
    isNear(log2({ n: 10n ** 400n - 1n, d: 10n ** 400n }).about + 1, 1, "1 - 10^-400");
    assert.equal(log2(fraction("3")).exact, null);
});

test("Shannon's entropy, exact where each probability is a power of two", () => {
    assert.equal(printed(entropy(["1/2", "1/4", "1/8", "1/8"].map(fraction)).exact), "7/4");
    assert.equal(printed(entropy([fraction("1")]).exact), "0");
    isNear(entropy(["1/4", "3/4"].map(fraction)).about, 0.8112781244591328, "1/4, 3/4");
});

test("whether a value of four is one of them: 0.811 bits of 2", () => {
    const third = ["0", "1", "3"].map((value) => ({ value, share: fraction("1/3") }));
    const inners = [{ outer: fraction("3/4"), shares: third }, { outer: fraction("1/4"), shares: [{ value: "2", share: fraction("1") }] }];
    const prior = ["0", "1", "2", "3"].map((value) => ({ value, share: fraction("1/4") }));
    const found = shannon(prior, inners);
    assert.equal(printed(found.prior.exact), "2");
    isNear(found.posterior.about, 0.75 * 1.584962500721156, "posterior");
    // What is seen is a function of the value: its entropy, that of 1/4 and 3/4.
    isNear(found.leakage.about, 0.8112781244591328, "leakage");
    assert.equal(printed(shannon(prior, [{ outer: fraction("1"), shares: prior }]).leakage.exact), "0");
});

test("bits as they are shown", () => {
    assert.deepEqual([bitsText(log2(fraction("2"))), bitsText(log2(fraction("8"))), bitsText(log2(fraction("1/2"))), bitsText(log2(fraction("1")))],
        ["= 1 bit", "= 3 bits", "= −1 bits", "= 0 bits"]);
    assert.equal(bitsText(log2(fraction("3"))), "≈ 1.585 bits");
    assert.equal(bitsText(entropy(["1/2", "1/4", "1/4"].map(fraction))), "= 1.5 bits");
    assert.deepEqual(["2", "0", "-1"].map((text) => leakageText(fraction(text))), ["= 1 bit", "", ""]);
    assert.equal(leakageText(null), "");
});
