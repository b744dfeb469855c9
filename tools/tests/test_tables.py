"""`.ci/tables` writes what is derived, and sees each row that is missing anywhere, each that is there alone, and each that can't be read."""

import subprocess
from pathlib import Path

import pytest
from conftest import Repository
from gate.tables import faults_of_blocks, run, write, written
from gate.tables_blocks import Block
from gate.tables_manual import mdoc
from gate.tables_pages import explanation, operators
from gate.tables_places import BESIDE, HOSTILE, PLAIN
from gate.tables_rows import Fault, Tables

TOP = Path(__file__).resolve().parents[2]
TABLES = ".ci/tables"
CODE, ROW = "crates/kf_words/src/commands.rt", '    plain!("blame", CommandWord::OneFile(OneFile::Blame), 1),\n'
TASK, TASK_ROW = "crates/kf_words/specs/Task.antt", '    ∷ (codes "blame", files_only Blame 1) ∷ (codes "lines", with_gain Optional Lines 1) ∷ []\n'
OPS, LEXER, TOKENS = "crates/kf_ops/src/table.rt", "crates/kf_lex/src/words.rt", "crates/kf_lex/src/token.rt"
COMMANDS, REFUSALS, KEYWORDS = "share/commands.toml", "share/refusals.toml", "share/keywords.toml"
MANUAL, PAGE, PACKAGE = "share/man/kuifje.1", "web/src/words.mjs", "python/src/kuifje/vocabulary.py"
NEW = """
[[command]]
word = "entropy-bounds"
files = ["FILE"]
statuses = [0, 3, 4, 5, 6, 7, 11, 12]
section = "A hyper"
help = "between which numbers the entropy lies"
question = "between which numbers does the entropy lie?"
about = "any"
prints = "two bounds of the entropy"
"""


def there(patterns: tuple[str, ...]) -> str:
    """Those of some names for which there are files, as a message names them."""
    return " or ".join(pattern for pattern in patterns if any(TOP.glob(pattern)))


def refused(repository: Repository, naming: str) -> list[str]:
    """What is found in the copy, in which one line has this text."""
    faults = run(repository.top, False)[1]
    assert any(naming in fault for fault in faults), f"nowhere {naming!r}: {faults}"
    return faults


BLOCKS = [block for block in written(Tables(TOP)) if block.begin]
WHOLE = [block for block in written(Tables(TOP)) if not block.begin]


def test_nothing_is_found_where_nothing_is_wrong(repository: Repository) -> None:
    repository.passes(TABLES)


def test_another_word_than_write_is_refused(repository: Repository) -> None:
    status, printed = repository.run(TABLES, "--wirte")
    assert status == 2 and printed == "tables: it takes no word but --write\n"


# ---- what is written


@pytest.mark.parametrize(
    "name, row",
    [
        ("README.md", "| `kuifje trail FILE` | how many posteriors are there after each statement? | all variables |\n"),
        ("docs/GLOSSARY.md", "| `trail` | how many posteriors there are after each statement |\n"),
        ("docs/TRUST.md", "| `make` | 0, 4, 12 |\n"),
        ("docs/COMMANDS.md", "| 13 | `quiet`: B is above the number of top-level statements, C | nothing | `kuifje: NAME: C statements` |\n"),
        ("docs/REFUSALS.md", "| `Syntax` | 5 | [Syntax](#syntax) |\n"),
        ("docs/LANGUAGE.md", "| `union` `less` | 5 | two sets of one kind | set | |\n"),
        ("docs/LANGUAGE.md", " `subset` `size` `cond`"),
        (MANUAL, ".Nm\n.Cm trail\n.Ar FILE\n.Op Fl Fl turns Ar N\n"),
        (MANUAL, ".It Cm trail\n"),
        (MANUAL, ".It 13\n"),
        (MANUAL, ".Ql DivZero ,\n"),
        ("share/completions/kuifje.bash", " trail"),
        ("share/completions/kuifje.bash", " trail/0"),
        ("share/completions/_kuifje", "        'trail:how many posteriors there are after each statement'\n"),
        ("share/completions/_kuifje", "reach/3 | "),
        ("share/completions/kuifje.fish", "    'trail:how many posteriors there are after each statement' \\\n"),
        ("share/vim/syntax/kuifje.vim", " union"),
        ("share/vim/syntax/kuifje.vim", r"!=\|"),
        ("share/textmate/kuifje.tmLanguage.json", "union|"),
        (PACKAGE, '    "trail": (1, "", "no"),\n'),
        (PACKAGE, '"union", '),
        (PAGE, '    ["trail", { certificates: 0, programs: 1 }],\n'),
        (PAGE, '"union", '),
        (PAGE, '"!=", '),
        ("python/src/kuifje/refusals.json", "Divide where the divisor"),
    ],
)
def test_a_row_that_is_left_out_is_missed_and_written_again(repository: Repository, name: str, row: str) -> None:
    if row == "Divide where the divisor":
        row = "DivZero: div"
    before = (repository.top / name).read_text()
    repository.spoil(name, row, "")
    places = [block.place for block in written(Tables(TOP)) if block.name == name]
    faults = list(faults_of_blocks(Tables(repository.top)))
    assert any(f"{place}: it isn't what the tables say, which .ci/tables --write writes" in faults for place in places), faults
    assert run(repository.top, True) == ([name], [])
    assert (repository.top / name).read_text() == before


@pytest.mark.parametrize("block", BLOCKS, ids=[block.place for block in BLOCKS])
def test_a_part_whose_first_line_is_missing_or_stands_twice_is_refused(repository: Repository, block: Block) -> None:
    for times, line in (("0", ""), ("2", f"{block.begin}\n{block.begin}\n")):
        before = (repository.top / block.name).read_text()
        repository.spoil(block.name, f"{block.begin}\n", line)
        fault = f"{block.name}: the line {block.begin.strip()!r} stands there {times} times, and not once"
        tables = Tables(repository.top)
        assert fault in faults_of_blocks(tables)
        with pytest.raises(Fault) as raised:
            list(write(tables))
        assert str(raised.value) == fault
        repository.restore()
        assert (repository.top / block.name).read_text() == before


@pytest.mark.parametrize("name", ["share/completions/kuifje.bash", MANUAL, "share/vim/syntax/kuifje.vim"])
def test_a_part_without_an_end_is_refused_and_nothing_is_written(repository: Repository, name: str) -> None:
    before = (repository.top / "README.md").read_text()
    repository.spoil("README.md", "`kuifje trail FILE`", "`kuifje trails FILE`")
    text = (repository.top / name).read_text()
    repository.write(name, text.replace(" to here\n", " up to here\n"))
    names, faults = run(repository.top, True)
    assert names == [] and len(faults) == 1 and faults[0].startswith(f"{name}, after ") and ": below it no line is " in faults[0]
    assert (repository.top / "README.md").read_text() == before.replace("`kuifje trail FILE`", "`kuifje trails FILE`")


@pytest.mark.parametrize("block", WHOLE, ids=[block.name for block in WHOLE])
def test_a_file_that_is_written_whole_and_is_missing(repository: Repository, block: Block) -> None:
    before = (repository.top / block.name).read_text()
    repository.write(block.name, before)
    (repository.top / block.name).unlink()
    refused(repository, f"{block.name}: there is no such file")
    assert run(repository.top, True) == ([block.name], [])
    assert (repository.top / block.name).read_text() == before


def test_a_line_that_is_changed_is_named_with_the_one_that_should_stand_there(repository: Repository) -> None:
    repository.spoil("docs/TRUST.md", "| `make` | 0, 4, 12 |", "| `make` | 0, 12 |")
    lines = repository.refuses(TABLES, "docs/TRUST.md, after '| Command | Statuses |': it lacks '| `make` | 0, 4, 12 |'")
    assert "tables: docs/TRUST.md, after '| Command | Statuses |': it has '| `make` | 0, 12 |'" in lines


# ---- commands


@pytest.mark.parametrize("word", ["entropy-bounds", "entropy_bounds2", "entropy bounds", "blam", "blames"])
def test_a_command_of_the_code_alone(repository: Repository, word: str) -> None:
    """Whatever characters its word has: a pattern of letters alone once passed over a hyphen."""
    repository.spoil(CODE, ROW, ROW + ROW.replace("blame", word))
    repository.spoil(TASK, TASK_ROW, TASK_ROW.replace("∷ []\n", f'∷ (codes "{word}", files_only Blame 1) ∷ []\n'))
    faults = refused(repository, f"{CODE}: {word} stands there, and not in {COMMANDS}")
    assert f"{TASK}: {word} stands there, and not in {COMMANDS}" in faults
    assert f"{CODE}: 19 rows can be read, and 18 are declared" in faults


def test_a_command_of_the_table_alone_is_missed_wherever_it_stands_by_hand(repository: Repository) -> None:
    for block in BLOCKS + WHOLE:
        repository.write(block.name, (repository.top / block.name).read_text())  # so that what is written is put back
    repository.write(COMMANDS, (repository.top / COMMANDS).read_text() + NEW)
    status, printed = repository.run(TABLES, "--write")
    lines = printed.splitlines()
    assert status == 1
    assert sorted(line for line in lines if not line.endswith(" is written")) == sorted(
        [
            f"tables: {CODE}: entropy-bounds is missing there, and stands in {COMMANDS}",
            f"tables: {TASK}: entropy-bounds is missing there, and stands in {COMMANDS}",
            "tables: crates/kf_cases/data/*.cases: the command entropy-bounds is missing there",
            "tables: docs/FORMATS.md: the command entropy-bounds is missing there",
            "tables: docs/COSTS.md: the command entropy-bounds is missing there",
            "tables: CHANGELOG.md: the command entropy-bounds is missing there",
            f"tables: {there(HOSTILE)}: the command entropy-bounds is missing there",
            f"tables: {there(BESIDE)}: the command entropy-bounds is missing there",
            "tables: python/src/kuifje/program.py: the function entropy_bounds is missing there",
        ]
    )
    assert [line for line in lines if line.endswith(" is written")] == [
        f"tables: {name} is written"
        for name in (
            "README.md",
            "docs/COMMANDS.md",
            "docs/GLOSSARY.md",
            "docs/TRUST.md",
            MANUAL,
            "share/completions/kuifje.bash",
            "share/completions/_kuifje",
            "share/completions/kuifje.fish",
            PACKAGE,
            PAGE,
        )
    ]


@pytest.mark.parametrize(
    "row",
    [
        '    ("blame", CommandRow { command: CommandWord::OneFile(OneFile::Blame), values: 1, needs_gain: false, takes_json: false }),\n',
        '    bare!("blame", 1, CommandWord::OneFile(OneFile::Blame)),\n',
    ],
)
def test_rows_of_the_code_are_read_in_whatever_form(repository: Repository, row: str) -> None:
    repository.spoil(CODE, ROW, row)
    assert run(repository.top, False) == ([], [])


@pytest.mark.parametrize(
    "name, old, new, naming",
    [
        (CODE, ROW, ROW.replace('"blame"', "BLAME"), "17 rows can be read, and 18 begin a row"),
        (CODE, ROW, ROW.replace('"blame"', "BLAME"), "blame is missing there, and stands in share/commands.toml"),
        (CODE, ROW, "", "17 rows can be read, and 18 are declared"),
        (CODE, ROW, ROW + ROW, "blame stands there twice"),
        (CODE, ROW, ROW.replace(", 1)", ", 2)"), "blame has values ['2'], and in share/commands.toml ['1']"),
        (CODE, "UnderGain::Leak, Presence::Required", "UnderGain::Leak, Presence::Absent", "leak has --gain no, and in share/commands.toml needs"),
        (CODE, "UnderGain::Leak, Presence::Required", "UnderGain::Leak, Presence::Optional", "leak has --gain may, and in share/commands.toml needs"),
        (
            CODE,
            "UnderGain::Lines, Presence::Optional",
            "UnderGain::Lines, Presence::Required",
            "lines has --gain needs, and in share/commands.toml may",
        ),
        (
            CODE,
            "values: 1,\n                gain: $gain",
            "values: 2,\n                gain: $gain",
            "leak has values ['2'], and in share/commands.toml ['1']",
        ),
        (CODE, "takes_json: true", "takes_json: false", "refine has --json False, and in share/commands.toml True"),
        (CODE, "const COMMANDS: ", "const TABLE: ", "'const COMMANDS: ' stands there 0 times"),
        (TASK, TASK_ROW, TASK_ROW.replace('codes "blame"', "blame"), "17 rows can be read, and 18 stand in the list"),
        (TASK, "\ncommands =\n", "\ncommands = \n", "'\\ncommands =\\n' stands there 0 times"),
        (CODE, 'under_gain!("lines"', 'under_gain!("lines-of"', f"{CODE}: lines is missing there"),
        ("crates/kf_words/src/arguments.rt", '.long("turns")', '.long("turn")', "turns is missing there, and stands in share/commands.toml"),
        ("crates/kf_words/src/arguments.rt", '.long("turns")', ".long(TURNS)", "2 rows can be read, and 3 options are made"),
        ("crates/kf_words/src/gain_words.rt", 'word == "guessing"', 'word == "guesses"', "guesses stands there, and not in share/commands.toml"),
        ("crates/kf_words/src/gain_words.rt", 'word == "guessing"', "word == GUESSING", "3 rows can be read, and 4 words are compared"),
        (MANUAL, ".It Fl Fl json\n", ".It Fl Fl json-lines\n", "kuifje.1, options: json-lines stands there, and not in "),
        (MANUAL, ".It Cm guessing\n", ".It Cm guesses\n", "kuifje.1, gains: guessing is missing there"),
        ("python/src/kuifje/gains.py", "", "", "python/src/kuifje/gains.py: the gain guessing is missing there"),
        ("share/completions/kuifje.fish", "-l turns", "-l turn", "kuifje.fish: the option turns is missing there"),
        ("web/src/questions.mjs", '"trail"]', '"trail-of"]', "web/src/*.mjs: there is no command trail-of"),
        ("web/src/questions.mjs", 'commands: ["channel"]', "commands: CHANNEL", "a list of the commands of a view can't be read"),
        ("docs/COSTS.md", "", "", "docs/COSTS.md: the command blame is missing there"),
    ],
)
def test_a_command_that_the_code_or_another_place_has_otherwise(repository: Repository, name: str, old: str, new: str, naming: str) -> None:
    if old:
        repository.spoil(name, old, new)
    else:  # wherever it stands
        word = naming.split(" is missing")[0].split()[-1]
        repository.write(name, (repository.top / name).read_text().replace(word, f"no {word[1:]}"))
    refused(repository, naming)


@pytest.mark.parametrize(
    "name, old, new, naming",
    [
        (COMMANDS, 'help = "how many posteriors', 'hint = "how many posteriors', "share/commands.toml: trail: a row has other parts than it should"),
        (COMMANDS, 'about = "all variables"\n', "", "a row has other parts than it should"),
        (COMMANDS, 'gain = "may"', 'gain = "might"', "lines: there is no gain 'might' or no value ''"),
        (COMMANDS, 'value = "A..B"', 'value = "A-B"', "quiet: there is no gain 'no' or no value 'A-B'"),
        (COMMANDS, 'word = "trail"', 'word = "hyper"', "share/commands.toml: hyper stands there twice"),
        (COMMANDS, "the hyper where some", "Bob's hyper where some", "quiet: shells read quotation marks, colons and backslashes in \"Bob's hyper"),
        (COMMANDS, 'about = "fixed"', 'about = "a|b"', "README.md: a row of a table can't have an upright stroke or a line's end"),
        (COMMANDS, 'word = "trail"', "word = trail", "share/commands.toml: Invalid value"),
        (COMMANDS, "\ngains = ", "\ngain = ", "share/commands.toml: its parts are options, gain, values, command, and not options, gains, "),
        (COMMANDS, "two channels, and of their cascade", "(A, B)", "the manual page can't have"),
        (REFUSALS, 'name = "TOO_WIDE"', 'title = "TOO_WIDE"', "share/refusals.toml: 7: a row has other parts than it should"),
        (REFUSALS, 'section = "The scale"', 'section = "Scales"', "docs/REFUSALS.md: the heading 'Scales' stands there 0 times, and not once"),
        (KEYWORDS, '["while"]', '["while", "var"]', "share/keywords.toml: var stands there twice"),
        (KEYWORDS, "repeat = ", "loop = ", "share/keywords.toml: its parts are declaration, target, type, statement, conditional, loop, "),
    ],
)
def test_a_table_that_cant_be_read(repository: Repository, name: str, old: str, new: str, naming: str) -> None:
    repository.spoil(name, old, new)
    refused(repository, naming)


# ---- the language


@pytest.mark.parametrize(
    "name, old, new, naming",
    [
        (OPS, 'word: "union"', 'word: "unite"', "audit/coq/definitions/Language.v: the operator unite is missing there"),
        (OPS, 'word: "union"', 'word: "unite"', f"{there(PLAIN)}: the operator unite is missing there"),
        (OPS, 'word: "union"', 'word: "unite"', "crates/kf_cases/data/expressions.cases: the operator unite is missing there"),
        (OPS, 'word: "union"', 'word: "unite"', "crates/kf_layer_tests/src/tests/operators.rt: the operator unite is missing there"),
        (OPS, 'word: "union"', 'word: "unite"', "docs/LANGUAGE.md, the grammar: unite is missing there"),
        (OPS, 'word: "union"', 'word: "unite"', f"{PAGE}: it lacks"),
        (OPS, 'word: "union"', "word: UNION", "27 rows are declared, 27 can be read, and 26 have a word"),
        (OPS, "; 27]", "; 28]", "28 rows are declared, 27 can be read, and 27 have a word"),
        (OPS, "        div_zero: true,\n", "", "a row has other fields than it should"),
        (OPS, 'word: "union"', 'word: "less"', f"{OPS}: less stands there twice"),
        (OPS, "args: [Pat::Int, Pat::Int,", "args: [Pat::Int, Pat::Bool,", "tables_pages.py: no words for what < takes and gives: Int, Bool, Bool"),
        (LEXER, '        "var" => Some(Word::VarWord),\n', "", f"{LEXER}, own_word: var is missing there, and stands in share/keywords.toml"),
        (LEXER, '"var" => Some', "VAR => Some", "16 rows can be read, and 17 give a word"),
        (LEXER, "    (Op::Union, Word::UnionWord),\n", "", "OPERATOR_WORDS: Union is missing there"),
        (LEXER, "    (Op::Union, Word::UnionWord),\n", "", "OPERATOR_WORDS: 16 rows can be read, and 17 are declared"),
        (LEXER, '            Sign::Star => "*",\n', "", "Sign has 20 variants, and the tables have 19"),
        (TOKENS, "    UnionWord,\n", "", "Word has 33 variants, and the tables have 34"),
        (KEYWORDS, '"vis"', '"show"', "own_word: vis stands there, and not in share/keywords.toml"),
        ("audit/coq/definitions/Language.v", '(5, "union", Union)', '(6, "union", Union)', "Language.v: the operator union is missing there"),
        ("docs/LANGUAGE.md", '"union"', '"unite"', "docs/LANGUAGE.md, the grammar: union is missing there"),
    ],
)
def test_a_word_of_the_language(repository: Repository, name: str, old: str, new: str, naming: str) -> None:
    repository.spoil(name, old, new)
    refused(repository, naming)


def test_operators_of_one_level_that_take_the_same_share_a_row() -> None:
    rows = [" | ".join(row) for row in operators(Tables(TOP))]
    assert rows[:2] == ["`or` `xor` `implies` | 1 | two truth values | truth value | ", "`and` | 2 | two truth values | truth value | "]
    assert "`div` | 6 | two numbers | number | the divisor is 0, or it isn't an i64" in rows
    assert "`-` before a number | 7 | number | number | it isn't an i64" in rows and "`min` `max` | 8 | two numbers | number | " in rows
    assert len(rows) == 18


# ---- statuses and refusals


@pytest.mark.parametrize(
    "name, old, new, naming",
    [
        (COMMANDS, "statuses = [0, 3, 4, 5, 6, 7, 11, 12, 13]", "statuses = [0, 3, 4, 5, 6, 7, 11, 12]", "quiet lacks the status 13, and "),
        (COMMANDS, "statuses = [0, 4, 12]", "statuses = [0, 4, 5, 12]", "make has the status 5, and "),
        (COMMANDS, "statuses = [0, 4, 12]", "statuses = [0, 12]", "make lacks the status 4, and "),
        (REFUSALS, 'commands = ["parallel"]', 'commands = ["parallels"]', f"{REFUSALS}: 8: there is no command parallels"),
        (REFUSALS, 'commands = ["parallel"]', 'commands = ["refine"]', "parallel has the status 8, and "),
        (REFUSALS, '"Deep", ', "", "the variants of LexError, ParseError, TypeError: Deep stands there, and not in share/refusals.toml"),
        (REFUSALS, '"Deep"', '"Deeper"', f"{there(HOSTILE)}: the refusal Deeper is missing there"),
        (REFUSALS, '"Deep"', '"Deeper"', "docs/LANGUAGE.md: the refusal Deeper is missing there"),
        (REFUSALS, "kuifje: rows differ", "kuifje: rows vary", f"{there(HOSTILE)}: the refusal rows vary is missing there"),
        (
            "crates/kf_check/src/errors.rt",
            "    BadFlip { at: u32 },",
            "    BadFlip { at: u32 },\n    Worse { at: u64 },",
            "Worse stands there, and not in",
        ),
        (
            "crates/kf_check/src/errors.rt",
            "    BadFlip { at: u32 },",
            "    BadFlip { at: u32 }, // last",
            "TypeError has 10 lines, and 9 can be read",
        ),
        ("crates/kf_support/src/faults.rt", "    DivZero,\n", "    ByZero,\n", "the variants of RunFault: DivZero is missing there"),
        ("include/kuifje.h", "KUIFJE_TOO_LONG = 11,", "KUIFJE_TOO_LONG = 14,", "include/kuifje.h: 11 TOO_LONG is missing there"),
        ("include/kuifje.h", "KUIFJE_NO = 1,", "KUIFJE_NO = 0x1,", "include/kuifje.h: 14 rows can be read, and 15 have a number"),
        ("docs/LIBRARY.md", "| 7 | `KUIFJE_TOO_WIDE` |", "| 7 | `KUIFJE_WIDE` |", "docs/LIBRARY.md: 7 WIDE stands there, and not in"),
        ("docs/LIBRARY.md", "| 8 | `KUIFJE_TOO_LARGE` |", "| 8 | KUIFJE_TOO_LARGE |", "docs/LIBRARY.md: 14 rows can be read, and 15 begin so"),
        ("docs/REFUSALS.md", "**DivZero**: `div`", "**DivZero**: by `div`", "python/src/kuifje/refusals.json: it isn't what the tables say"),
        ("docs/COMMANDS.md", "FAULT is one of `DivZero`", "FAULT is one of", "docs/COMMANDS.md: the refusal DivZero is missing there"),
    ],
)
def test_a_status_or_a_refusal(repository: Repository, name: str, old: str, new: str, naming: str) -> None:
    repository.spoil(name, old, new)
    refused(repository, naming)


def test_an_explanation_ends_where_the_next_one_begins() -> None:
    below = ["**Deep**: more than `64` stand open. **Long**: [too many](PAGE.md#x) parts:", "More.", "**`C stores`** comes of `covers`."]
    assert explanation("Deep", below) == "Deep: more than 64 stand open."
    assert explanation("Long", below) == "Long: too many parts."
    assert explanation("C stores", below) == "C stores comes of covers."
    assert explanation("Utf8", below) == "Deep: more than 64 stand open. Long: too many parts."


# ---- texts of the manual page, and completions


def test_names_are_macros_and_sentences_begin_lines() -> None:
    text = "Prints whether B leaks no more than A, as `refine` does: `yes`; after ([X.md](X.md), [Y.md](Y.md#z)). A second one of N/D. A program."
    assert list(mdoc(text.replace(" ([", " here ([", 1), ["refine"])) == [
        "Prints whether",
        ".Ar B",
        "leaks no more than",
        ".Ar A ,",
        "as",
        ".Cm refine",
        "does:",
        ".Ql yes ;",
        "after here.",
        "A second one of",
        ".Ar N/D .",
        "A program.",
    ]
    with pytest.raises(Fault, match="can't have"):
        list(mdoc("that (A, B) is", []))


def completed(line: str, folder: Path) -> list[str]:
    """What bash offers at the end of a line, in a folder."""
    script = 'source "$1"; COMP_LINE=$2 COMP_POINT=${#2}; _kuifje; printf "%s\\n" "${COMPREPLY[@]}"'
    words = ["bash", "-c", script, "bash", str(TOP / "share/completions/kuifje.bash"), line]
    done = subprocess.run(words, cwd=folder, stdout=subprocess.PIPE, stderr=subprocess.DEVNULL, check=True)
    return [name for name in done.stdout.decode().splitlines() if name]


def test_bash_offers_files_where_files_stand(tmp_path: Path) -> None:
    for name in ("a.kf", "b.kf", "proof.json"):
        (tmp_path / name).touch()
    programs = ["a.kf", "b.kf"]
    assert completed("kuifje ch", tmp_path) == ["check", "channel", "choice"]
    assert completed("kuifje hyper ", tmp_path) == programs and completed("kuifje hyper a.kf ", tmp_path) == []
    assert completed("kuifje check ", tmp_path) == ["proof.json"] and completed("kuifje check proof.json ", tmp_path) == programs
    assert completed("kuifje choice a.kf ", tmp_path) == programs and completed("kuifje choice a.kf b.kf ", tmp_path) == []
    assert completed("kuifje --turns 5 quiet a.kf ", tmp_path) == [] and completed("kuifje make ", tmp_path) == []
    assert completed("kuifje lines a.kf --g", tmp_path) == ["--gain"] and completed("kuifje hyper a.kf --g", tmp_path) == []
    assert completed("kuifje lines a.kf --gain table:", tmp_path) == ["proof.json"]
