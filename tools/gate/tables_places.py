"""What isn't written from the tables, and is compared with them: the code's own rows, and every other place that names a row.

Rows of the code are read by the texts in them, whatever the rest of a row looks like, and counted a second way, by something else that each row has:
a row that can't be read is a fault, and is never passed over. Everywhere else each row of a table is looked for by its name alone.
"""

from __future__ import annotations

import re
from collections.abc import Iterable, Iterator

from .tables_rows import COMMANDS, KEYWORDS, LEXER, REFUSALS, USAGE, Command, Fault, Tables, part

ALWAYS = (0, 4, 12)  # how each command may end, whatever it reads
NAMED = r"(?<![\w-])WORD(?![\w-])"
HOSTILE = ("tools/gate/hostile/*.py",)  # stress tests, and what they allow the program to say
BESIDE = ("tools/gate/beside.py", "tools/gate/ways.py")  # plain programs that work answers out another way
PLAIN = ("tools/gate/plain.py",)
WRITTEN_COMMANDS = [  # these are written from the table; that no row is lost on the way is seen here
    "README.md",
    "docs/COMMANDS.md",
    "docs/GLOSSARY.md",
    "docs/TRUST.md",
    "share/man/kuifje.1",
    "share/completions/kuifje.bash",
    "share/completions/_kuifje",
    "share/completions/kuifje.fish",
    "python/src/kuifje/vocabulary.py",
    "web/src/words.mjs",
]
WRITTEN_WORDS = [
    "docs/LANGUAGE.md",
    "share/vim/syntax/kuifje.vim",
    "share/textmate/kuifje.tmLanguage.json",
    "python/src/kuifje/vocabulary.py",
    "web/src/words.mjs",
]


def rows(place: str, found: Iterable[str], wanted: Iterable[str], table: str, **counts: int) -> Iterator[str]:
    """Rows of the code that differ from those of a table, and other ways of counting them by which they are more or fewer."""
    seen, due = list(found), list(wanted)
    yield from (f"{place}: {word} is missing there, and stands in {table}" for word in due if word not in seen)
    yield from (f"{place}: {word} stands there, and not in {table}" for word in seen if word not in due)
    yield from (f"{place}: {word} stands there twice" for word in sorted(set(seen)) if seen.count(word) > 1)
    for name, count in counts.items():
        if count != len(seen):
            yield f"{place}: {len(seen)} rows can be read, and {count} {name.replace('_', ' ')}"


def missing(what: str, words: Iterable[str], tables: Tables, form: str, *patterns: str) -> Iterator[str]:
    """The words that none of these files has in this form, in which WORD stands for it."""
    text = tables.texts(*patterns)
    place = " or ".join([pattern for pattern in patterns if any(tables.top.glob(pattern))] or patterns)
    absent = [word for word in words if not re.search(form.replace("WORD", re.escape(word)), text, re.MULTILINE)]
    if absent:
        yield f"{place}: {what} {', '.join(absent)} is missing there"


PRESENCES = {"Absent": "no", "Optional": "may", "Required": "needs"}  # of --gain, as the code has it


# ---- commands


def of_kf_words(tables: Tables) -> Iterator[str]:
    """The rows of the code, how many values each has, and whether it takes `--gain` and `--json`; and the rows of the definition."""
    code, definition = "crates/kf_words/src/commands.rt", "crates/kf_words/specs/Task.antt"
    table = part(tables.text(code), "const COMMANDS: ", "\n];", code)
    kind, _, body = table.partition("= &[")
    declared = sum(map(int, re.findall(r"; (\d+)\]", kind)))
    pieces = re.split(r'"([^"]*)"', body)
    by_word = dict(zip(pieces[1::2], pieces[2::2], strict=True))
    begun = len(re.findall(r"^    (?:\w+!)?\(", body, re.MULTILINE))
    yield from rows(code, pieces[1::2], tables.words, COMMANDS, are_declared=declared, begin_a_row=begun)
    under_gain = re.findall(r"values: (\d+)", part(tables.text(code), "macro_rules! under_gain {", "\n}", code))
    for row in tables.commands:
        yield from differences(code, row, by_word.get(row.word, ""), under_gain)
    body = part(tables.text(definition), "\ncommands =\n", "\n\n", definition)
    yield from rows(definition, re.findall(r'"([^"]*)"', body), tables.words, COMMANDS, stand_in_the_list=body.count("∷"))


def differences(place: str, row: Command, text: str, under_gain: list[str]) -> Iterator[str]:
    """What the rest of a command's row in the code says otherwise. A row under a gain has the number of values that all such rows have."""
    gain = re.search(r"Presence::(\w+)", text)
    found = {
        "values": re.findall(r"\b\d+\b", text) or under_gain,
        "--gain": PRESENCES.get(gain[1], gain[1]) if gain else "no",
        "--json": "takes_json: true" in text,
    }
    wanted = {"values": [str(len(row.values))], "--gain": row.gain, "--json": row.json}
    for name, value in found.items():
        if text and value != wanted[name]:
            yield f"{place}: {row.word} has {name} {value}, and in {COMMANDS} {wanted[name]}"


def of_options(tables: Tables) -> Iterator[str]:
    """Options and gains: those of the code, and those that the manual page and the completions have."""
    code, reader, manual = "crates/kf_words/src/arguments.rt", "crates/kf_words/src/gain_words.rt", "share/man/kuifje.1"
    text = tables.text(code)
    yield from rows(code, re.findall(r'\.long\("([^"]+)"\)', text), tables.options, COMMANDS, options_are_made=text.count(".long("))
    text = tables.text(reader)
    found = re.findall(r'\bword(?: == |\.strip_prefix\()"([^"]+)"', text)
    yield from rows(reader, found, tables.gains, COMMANDS, words_are_compared=text.count("word == ") + text.count("word.strip_prefix("))
    options = part(tables.text(manual), ".Sh OPTIONS\n", "\n.Sh ", manual)
    gains = part(options, ".It Fl Fl gain", ".It Fl Fl turns", manual)
    yield from rows(f"{manual}, options", re.findall(r"^\.It Fl Fl (\S+)", options, re.MULTILINE), tables.options, COMMANDS)
    found = [word.replace(" ", "") for word in re.findall(r"^\.It Cm (\S+(?: :)?)", gains, re.MULTILINE)]
    yield from rows(f"{manual}, gains", found, tables.gains, COMMANDS, begin_so=gains.count("\n.It "))
    for name in ("docs/COMMANDS.md", "docs/MEASURES.md", "python/src/kuifje/gains.py"):
        yield from missing("the gain", tables.gains, tables, r"\bWORD", name)
    for name in ("kuifje.bash", "_kuifje", "kuifje.fish"):
        yield from missing("the option", tables.options, tables, r"(?:--|-l )WORD(?![\w-])", f"share/completions/{name}")


def of_views(tables: Tables) -> Iterator[str]:
    """The commands for whose answers the page has a view."""
    text = tables.texts("web/src/*.mjs")
    lists = re.findall(r'\{ name: ".*\bcommands: \[([^\]]*)\]', text)
    if not lists or len(lists) != len(re.findall(r'\{ name: ".*\bcommands: ', text)):
        yield "web/src/*.mjs: a list of the commands of a view can't be read"
    for word in (word for some in lists for word in re.findall(r"[^\s,\"']+", some)):
        if word not in tables.words:
            yield f"web/src/*.mjs: there is no command {word}"


def of_commands(tables: Tables) -> Iterator[str]:
    """The places that name each command."""
    read = [row.word for row in tables.commands if row.files]
    for name in WRITTEN_COMMANDS:
        yield from missing("the command", tables.words, tables, NAMED, name)
    yield from missing("the command", tables.words, tables, r" kuifje WORD(?: |$)", "crates/kf_cases/data/*.cases")
    for name in ("docs/FORMATS.md", "docs/COSTS.md", "CHANGELOG.md"):
        yield from missing("the command", tables.words, tables, "`(?:kuifje )?WORD[` ]|kuifje WORD ", name)
    yield from missing("the command", tables.words, tables, NAMED, *HOSTILE)
    yield from missing("the command", read, tables, NAMED, *BESIDE)
    functions = [word.replace("-", "_") for word in read]
    yield from missing("the function", functions, tables, r"^(?:    )?def WORD\(", "python/src/kuifje/program.py")


# ---- the language


def of_kf_lex(tables: Tables) -> Iterator[str]:
    """The reserved words and the signs."""
    text, tokens = tables.text(LEXER), tables.text("crates/kf_lex/src/token.rt")
    own = part(text, "\nfn own_word(", "\n}", LEXER)
    yield from rows(f"{LEXER}, own_word", re.findall(r'"([^"]*)"', own), tables.own_words, KEYWORDS, give_a_word=own.count("Some(Word::"))
    letters = [row.code for row in tables.operators if row.word.isalpha()]
    pairs = part(text, "OPERATOR_WORDS: [(Op, Word); ", "];", LEXER)
    found = re.findall(r"\(Op::(\w+), Word::\w+\)", pairs)
    yield from rows(
        f"{LEXER}, OPERATOR_WORDS", found, letters, "crates/kf_ops", are_declared=int(pairs.split("]")[0]), are_words=pairs.count("Word::")
    )
    for enum, count in (("Word", len(tables.own_words) + len(letters)), ("Sign", len(tables.signs))):
        variants = len(variants_of(tokens, enum, "crates/kf_lex/src/token.rt"))
        if variants != count:
            yield f"crates/kf_lex/src/token.rt: {enum} has {variants} variants, and the tables have {count}"


def of_operators(tables: Tables) -> Iterator[str]:
    """The places that name each operator, and each reserved word and sign."""
    text, page = {row.text for row in tables.operators}, "docs/LANGUAGE.md"
    reserved = tables.own_words + tables.infix + tables.calls
    for name in WRITTEN_WORDS:
        yield from missing("the word", reserved, tables, NAMED, name)
    grammar = part(tables.text(page), "\nprogram = ", "```", page)
    yield from rows(f"{page}, the grammar", sorted(set(re.findall(r'"([^"]+)"', grammar))), reserved + tables.signs, "the tables")
    yield from missing("the operator", sorted(text), tables, r"(?<!\w)WORD(?!\w)", "crates/kf_cases/data/expressions.cases")
    yield from missing("the operator", sorted(text), tables, '"WORD"', *PLAIN)
    yield from missing("the operator", sorted(text - {"-"}), tables, '"WORD"', "crates/kf_layer_tests/src/tests/operators.rt")
    for row in tables.operators:
        yield from missing("the operator", [row.text], tables, rf'\({row.level}, "WORD", ', "audit/coq/definitions/Language.v")


# ---- statuses and refusals


def variants_of(text: str, enum: str, place: str) -> list[str]:
    """The variants of an enum. As many are read as lines of it are neither comments nor attributes."""
    body = part(text, f"pub enum {enum} {{\n", "\n}", place)
    found = re.findall(r"^    (\w+)(?: \{[^}]*\}|\([^)]*\))?,$", body, re.MULTILINE)
    lines = re.findall(r"^    [^ /#\n].*$", body, re.MULTILINE)
    if len(found) != len(lines):
        raise Fault(f"{place}: {enum} has {len(lines)} lines, and {len(found)} can be read")
    return found


def of_kinds(tables: Tables) -> Iterator[str]:
    """The words of refusals that are variants of the code's enums."""
    enums = {
        5: {"LexError": "kf_lex/src/token.rt", "ParseError": "kf_parse/src/errors.rt", "TypeError": "kf_check/src/errors.rt"},
        6: {"RunFault": "kf_support/src/faults.rt"},
        9: {"TableError": "kf_gain/src/error.rt", "CertError": "kf_cert/src/cert.rt"},
    }
    for number, of in enums.items():
        found = {word for enum, name in of.items() for word in variants_of(tables.text(f"crates/{name}"), enum, f"crates/{name}")} - {"Mem"}
        due = {word.removesuffix(" N") for (each, _), words in tables.endings.items() if each == number for word in words}
        yield from rows(f"the variants of {', '.join(of)}", sorted(found), sorted(due), REFUSALS)


def of_statuses(tables: Tables) -> Iterator[str]:
    """The statuses of each command, and those of the library."""
    for status in tables.statuses:
        named = {word for case in status.case for word in case.commands}
        yield from (f"{REFUSALS}: {status.number}: there is no command {word}" for word in sorted(named - set(tables.words)))
        is_general = any(not case.commands for case in status.case)
        for row in tables.commands:
            ends = row.word in named or is_general and (status.number in ALWAYS or bool(row.files))
            if status.number != 2 and ends != (status.number in row.statuses):
                yield f"{COMMANDS}: {row.word} {'lacks' if ends else 'has'} the status {status.number}, and {REFUSALS} says otherwise"
    due = [f"{status.number} {status.name}" for status in tables.statuses]
    header, page = "include/kuifje.h", "docs/LIBRARY.md"
    names = part(tables.text(header), "enum kuifje_status {\n", "};", header)
    found = [f"{number} {name}" for name, number in re.findall(r"KUIFJE_(\w+) = (\d+)\b(?!x)", names)]
    yield from rows(header, found, due, REFUSALS, have_a_number=len(re.findall(r" = \w", names)))
    cells = part(tables.text(page), "| Status | Name | Of the library |\n", "\n\n", page)
    found = [f"{number} {name}" for number, name in re.findall(r"^\| (\d+) \| `KUIFJE_(\w+)` \|", cells, re.MULTILINE)]
    yield from rows(page, found, due, REFUSALS, begin_so=len(re.findall(r"^\| \S", cells, re.MULTILINE)))


def of_refusals(tables: Tables) -> Iterator[str]:
    """The places that name each refusal: words of one are looked for as they are, of a line what it has in small letters."""
    for number, name in ((5, "docs/LANGUAGE.md"), (6, "docs/COMMANDS.md")):
        words = [word for (each, _), some in tables.endings.items() if each == number for word in some]
        yield from missing("the refusal", words, tables, "`WORD`", name)
    lines = [case.line for status in tables.statuses for case in status.case if case.line]
    for name in ("docs/COMMANDS.md", "share/man/kuifje.1"):
        yield from missing("the line", lines, tables, "WORD", name)
    endings = [word for words in tables.endings.values() for word in words if word != USAGE]
    texts = [max(re.findall(r"[A-Z]\w+|[a-z][a-z ]*[a-z]", ending), key=len) for ending in endings]
    for place in (["docs/REFUSALS.md"], ["share/man/kuifje.1"], ["python/src/kuifje/refusals.json"], HOSTILE):
        yield from missing("the refusal", texts, tables, r"(?<!\w)WORD(?!\w)", *place)


def faults_of_places(tables: Tables) -> Iterator[str]:
    """All of these."""
    for compare in (of_kf_words, of_options, of_views, of_commands, of_kf_lex, of_operators, of_kinds, of_statuses, of_refusals):
        try:
            yield from compare(tables)
        except Fault as error:
            yield str(error)
