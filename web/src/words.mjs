// Commands, operators, reserved words and signs: written by .ci/tables.

/** How many certificates, and after them programs, each command names. */
export const FILES = new Map([
    ["hyper", { certificates: 0, programs: 1 }],
    ["traces", { certificates: 0, programs: 1 }],
    ["leak", { certificates: 0, programs: 1 }],
    ["attack", { certificates: 0, programs: 1 }],
    ["reach", { certificates: 0, programs: 1 }],
    ["lines", { certificates: 0, programs: 1 }],
    ["blame", { certificates: 0, programs: 1 }],
    ["quiet", { certificates: 0, programs: 1 }],
    ["trail", { certificates: 0, programs: 1 }],
    ["refine", { certificates: 0, programs: 2 }],
    ["covers", { certificates: 0, programs: 2 }],
    ["check", { certificates: 1, programs: 2 }],
    ["channel", { certificates: 0, programs: 1 }],
    ["capacity", { certificates: 0, programs: 1 }],
    ["cascade", { certificates: 0, programs: 2 }],
    ["parallel", { certificates: 0, programs: 2 }],
    ["choice", { certificates: 0, programs: 2 }],
    ["make", { certificates: 0, programs: 0 }],
]);
/** The reserved words, by what they are for. */
export const WORDS = {
    declaration: ["var", "vis", "about", "old"],
    type: ["bool", "set", "of"],
    statement: ["skip", "observe", "if", "else", "while"],
    distribution: ["uniform", "choose", "flip"],
    constant: ["true", "false"],
    operator: ["or", "and", "not", "in", "union", "less", "div", "mod", "inter", "xor", "implies", "subset"],
    function: ["size", "cond", "min", "max", "abs"],
};
/** The signs, a longer one before a shorter one. */
export const SIGNS = [":=", "..", "!=", "<=", ">=", ":", ";", ",", "(", ")", "{", "}", ".", "/", "=", "<", ">", "+", "-", "*"];
/** The operators, from the loosest to the tightest, without the minus before a number. */
export const LEVELS = [
    ["or", "xor", "implies"],
    ["and"],
    ["not"],
    ["=", "!=", "<", "<=", ">", ">=", "in", "subset"],
    ["+", "-", "union", "less"],
    ["*", "div", "mod", "inter"],
];
