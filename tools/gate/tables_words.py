"""What is written to the completions, to the syntax files, and to the words of the Python package and of the page."""

from __future__ import annotations

import json
import re
from collections.abc import Iterator

from .tables_blocks import WRITTEN, Block, marked, quoted
from .tables_rows import MINUS, Command, Tables

COMPLETIONS = "share/completions/"
SCOPES = {  # the kinds of reserved words, by the names that grammars of TextMate have for such
    "storage.type": ["declaration"],
    "keyword.other.target": ["target"],
    "support.type": ["type"],
    "keyword.control": ["statement", "conditional", "repeat"],
    "keyword.other.distribution": ["distribution"],
    "constant.language": ["truth"],
}
COLOURS = {  # and by those that the page's editor has
    "declaration": ["declaration", "target"],
    "type": ["type"],
    "statement": ["statement", "conditional", "repeat"],
    "distribution": ["distribution"],
    "constant": ["truth"],
}
PUNCTUATION = ".:;,(){}"  # the signs that make no value


def of_kinds(tables: Tables, names: dict[str, list[str]]) -> dict[str, list[str]]:
    """The reserved words of some kinds together, by these names."""
    return {name: [word for kind in kinds for word in tables.keywords[kind]] for name, kinds in names.items()}


def with_option(tables: Tables) -> dict[str, list[str]]:
    """The commands with the options that not all have."""
    return {
        "with_gain": [row.word for row in tables.commands if row.gain != "no"],
        "with_json": [row.word for row in tables.commands if row.json],
    }


def certificates(row: Command, first: int) -> list[str]:
    """The places of a command's certificates, counted from this number."""
    return [f"{row.word}/{first + place}" for place in range(row.certificates)]


def programs(row: Command, first: int) -> list[str]:
    """The places of its programs."""
    return [f"{row.word}/{first + place}" for place in range(row.certificates, len(row.files))]


def in_bash(tables: Tables) -> Block:
    lists = {
        "commands": tables.words,
        **with_option(tables),
        "gains": tables.gains,
        "certificates": [place for row in tables.commands for place in certificates(row, 0)],
        "programs": [place for row in tables.commands for place in programs(row, 0)],
    }
    return marked(f"{COMPLETIONS}kuifje.bash", "#", "words", (f"local {name}='{' '.join(words)}'" for name, words in lists.items()), "    ")


def in_zsh(tables: Tables) -> Iterator[Block]:
    name, options = f"{COMPLETIONS}_kuifje", with_option(tables)
    yield marked(name, "#", "commands", (f"'{row.word}:{row.help}'" for row in tables.commands), " " * 8)
    yield marked(name, "#", "gains", [f"local -a gains=({' '.join(tables.gains)})"], "    ")
    patterns = {" | ".join(place for row in tables.commands for place in certificates(row, 2)): "_files -g '*.json(-.)'"}
    for value, message in tables.values.items():
        patterns[" | ".join(f"{row.word}/{2 + len(row.files)}" for row in tables.commands if row.value == value)] = f"_message '{message}'"
    yield marked(name, "#", "values", (f"{places}) {action} ;;" for places, action in patterns.items() if places), " " * 8)
    yield marked(name, "#", "options", [f"local -a {option}=({' '.join(words)})" for option, words in options.items()], "    ")


def in_fish(tables: Tables) -> Block:
    lists = {
        **with_option(tables),
        "gains": tables.gains,
        "with_certificate": [row.word for row in tables.commands if row.certificates],
        "with_program": [row.word for row in tables.commands if programs(row, 0)],
    }
    commands = " \\\n".join(["set -l commands", *(f"    '{row.word}:{row.help}'" for row in tables.commands)]).split("\n")
    lines = [*commands, *(f"set -l {name} {' '.join(words)}" for name, words in lists.items())]
    return marked(f"{COMPLETIONS}kuifje.fish", "#", "words", lines)


def in_vim(tables: Tables) -> Block:
    kinds = {**tables.keywords, "operatorWord": tables.infix, "function": tables.calls}
    lines = [f"syntax keyword kuifje{kind[0].upper()}{kind[1:]} {' '.join(words)}" for kind, words in kinds.items()]
    signs = r"\|".join(tables.by_length)
    return marked("share/vim/syntax/kuifje.vim", '"', "words", [*lines, f'syntax match kuifjeSign "\\V{signs}"'])


def in_textmate(tables: Tables) -> Block:
    """The whole grammar, since its format has no comments that a part could be found by."""
    words = {**of_kinds(tables, SCOPES), "keyword.operator.word": tables.infix, "support.function": tables.calls}
    patterns = {
        "comment.line.number-sign": "#.*$",
        **{name: rf"\b({'|'.join(some)})\b" for name, some in words.items()},
        "constant.numeric": r"\b[0-9]+\b",
        "keyword.operator": "|".join(re.escape(sign) for sign in tables.by_length if sign not in PUNCTUATION),
        "punctuation": "|".join(re.escape(sign) for sign in tables.by_length if sign in PUNCTUATION),
    }
    head = {"name": "Kuifje", "scopeName": "source.kuifje", "comment": WRITTEN, "fileTypes": ["kf"]}
    listed = [json.dumps({"name": f"{name}.kuifje", "match": pattern}) for name, pattern in patterns.items()]
    lines = ["{", *(f"  {quoted([name])}: {json.dumps(value)}," for name, value in head.items()), '  "patterns": [']
    lines += [*(f"    {line}," for line in listed[:-1]), f"    {listed[-1]}", "  ]", "}"]
    return Block("share/textmate/kuifje.tmLanguage.json", tuple(lines))


def levels_of(tables: Tables) -> list[list[str]]:
    """The operators of each level, from the loosest to the tightest, without the minus before a number."""
    return [[row.word for row in tables.operators if row.level == level] for level in range(1, MINUS)]


def in_python(tables: Tables) -> Block:
    levels = levels_of(tables)
    lines = (
        f'"""Commands, operators, reserved words and signs: {WRITTEN}."""',
        "",
        "COMMANDS: dict[str, tuple[int, str, str]] = {  # how many files each names, what stands after them, and whether it has a gain",
        *(f"    {quoted([row.word])}: ({len(row.files)}, {quoted([row.value, row.gain])})," for row in tables.commands),
        "}",
        "LEVELS: tuple[tuple[str, ...], ...] = (  # of operators, from the loosest to the tightest, without the minus before a number",
        *(f"    ({quoted(words)}{',' * (len(words) == 1)})," for words in levels),
        ")",
        f"CALLS = frozenset([{quoted(tables.calls)}])  # operators that are written before brackets",
        "RESERVED = frozenset(",
        f'    "{" ".join(tables.own_words)} "',
        f'    "{" ".join(tables.infix + tables.calls)}".split()',
        ")",
        f"SIGNS = ({quoted(tables.by_length)})",
    )
    return Block("python/src/kuifje/vocabulary.py", lines)


def on_the_page(tables: Tables) -> Block:
    kinds = {**of_kinds(tables, COLOURS), "operator": tables.infix, "function": tables.calls}
    levels = levels_of(tables)
    counts = ((row.word, row.certificates, len(row.files) - row.certificates) for row in tables.commands)
    lines = (
        f"// Commands, operators, reserved words and signs: {WRITTEN}.",
        "",
        "/** How many certificates, and after them programs, each command names. */",
        "export const FILES = new Map([",
        *(f"    [{quoted([word])}, {{ certificates: {few}, programs: {many} }}]," for word, few, many in counts),
        "]);",
        "/** The reserved words, by what they are for. */",
        "export const WORDS = {",
        *(f"    {kind}: [{quoted(words)}]," for kind, words in kinds.items()),
        "};",
        "/** The signs, a longer one before a shorter one. */",
        f"export const SIGNS = [{quoted(tables.by_length)}];",
        "/** The operators, from the loosest to the tightest, without the minus before a number. */",
        "export const LEVELS = [",
        *(f"    [{quoted(words)}]," for words in levels),
        "];",
    )
    return Block("web/src/words.mjs", lines)


def words(tables: Tables) -> list[Block]:
    """All of these."""
    return [
        in_bash(tables),
        *in_zsh(tables),
        in_fish(tables),
        in_vim(tables),
        in_textmate(tables),
        in_python(tables),
        on_the_page(tables),
    ]
