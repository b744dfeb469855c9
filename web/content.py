#!/usr/bin/env python3
"""Writes what the page has of the repository, as one JSON file: the programs and tables of examples/ and course/, the gallery's index, the
lessons with their exercises, solutions and questions, the pages that these lead to, and what REFUSALS.md says of each word that a refusal ends with.

    web/content.py OUT

A page is a list of blocks, and a block is an object whose `t` says what it is: `h` with `level`, `id` and `c`, `p` with `c`, `list` with
`ordered` and `items`, `quote` with `c`, `table` with `head` and `rows`, `code` with `kind`, `text` and, for a file, `name`. What stands in a line is a
list of texts and of objects: `code` with `s`, `em`, `strong` and `a` with `c`, the last also with `href`. The page makes elements of these and
never reads markup. It wants markdown-it for Python (Debian: python3-markdown-it)."""

from __future__ import annotations

import json
import re
import sys
from pathlib import Path
from typing import Any

from markdown_it import MarkdownIt
from markdown_it.token import Token

TOP = Path(__file__).resolve().parent.parent
PAGES = ["GLOSSARY", "LANGUAGE", "MODELS", "MEASURES", "REFINEMENT", "COMMANDS", "FORMATS", "REFUSALS", "COSTS", "TRUST"]
NAME_ABOVE = re.compile(r"`([\w./-]+)`:$")
ROW = re.compile(r"^\| (.*) \|$", re.MULTILINE)
LINK = re.compile(r"\[(.*)\]\((.*)\)")
QUESTION = re.compile(r"^\*\*(\d+)\.\*\* (.*?)\n<details><summary>Answer</summary>\n(.*?)\n</details>$", re.MULTILINE | re.DOTALL)
Block = dict[str, Any]
Inline = list[Any]

parser = MarkdownIt("commonmark").enable("table")


def inline_of(tokens: list[Token]) -> Inline:
    """What stands in a line, as a list."""
    found: Inline = []
    open_ones: list[Inline] = [found]
    for token in tokens:
        into = open_ones[-1]
        if token.type == "text":
            into += [token.content] if token.content else []
        elif token.type in ("softbreak", "hardbreak"):
            into.append(" ")
        elif token.type == "image":
            # The page fetches no pictures of the repository's pages: what stands for one is shown.
            into.append({"t": "em", "c": [token.content]})
        elif token.type == "code_inline":
            into.append({"t": "code", "s": token.content})
        elif token.type in ("em_open", "strong_open", "link_open"):
            kind = {"em_open": "em", "strong_open": "strong", "link_open": "a"}[token.type]
            made: Block = {"t": kind, "c": []}
            if kind == "a":
                made["href"] = str(token.attrs["href"])
            into.append(made)
            open_ones.append(made["c"])
        elif token.type in ("em_close", "strong_close", "link_close"):
            open_ones.pop()
        else:
            sys.exit(f"content: {token.type} stands in a line")
    return found


def text_of(inline: Inline) -> str:
    """The bare text of what stands in a line."""
    return "".join(it if isinstance(it, str) else it["s"] if it["t"] == "code" else text_of(it["c"]) for it in inline)


def anchor(head: str) -> str:
    """A heading as links name it."""
    return re.sub(r"[^\w -]", "", head.lower()).replace(" ", "-")


def is_comment(token: Token) -> bool:
    """Whether it is a comment of HTML alone, for scripts that write a part of a page: a reader doesn't see it."""
    return token.type == "html_block" and re.fullmatch(r"\s*<!--(?:(?!-->).)*-->\s*", token.content, re.DOTALL) is not None


class Reader:
    """Goes through a page's tokens, and makes blocks of them."""

    def __init__(self, text: str) -> None:
        self.tokens, self.at, self.above = [token for token in parser.parse(text) if not is_comment(token)], 0, ""

    def take(self) -> Token:
        self.at += 1
        return self.tokens[self.at - 1]

    def line(self) -> Inline:
        """What stands between an opening token and its end."""
        inline = inline_of(self.take().children or [])
        self.take()
        return inline

    def until(self, end: str) -> list[Block]:
        """The blocks before a token of this kind, which is taken."""
        found: list[Block] = []
        while self.tokens[self.at].type != end:
            found.append(self.block())
        self.take()
        return found

    def block(self) -> Block:
        token = self.take()
        if token.type == "heading_open":
            inline = self.line()
            return {"t": "h", "level": int(token.tag[1]), "id": anchor(text_of(inline)), "c": inline}
        if token.type == "paragraph_open":
            self.above = self.tokens[self.at].content
            return {"t": "p", "c": self.line()}
        if token.type in ("bullet_list_open", "ordered_list_open"):
            return self.list(token.type)
        if token.type == "blockquote_open":
            return {"t": "quote", "c": self.until("blockquote_close")}
        if token.type == "table_open":
            return self.table()
        if token.type == "fence":
            return self.code(token)
        sys.exit(f"content: a block of the kind {token.type}")

    def list(self, opened: str) -> Block:
        items = []
        while self.take().type == "list_item_open":
            items.append(self.until("list_item_close"))
        return {"t": "list", "ordered": opened == "ordered_list_open", "items": items}

    def table(self) -> Block:
        rows: list[list[Inline]] = []
        while (token := self.take()).type != "table_close":
            if token.type == "tr_open":
                rows.append([])
            elif token.type in ("th_open", "td_open"):
                rows[-1].append(self.line())
        return {"t": "table", "head": rows[0], "rows": rows[1:]}

    def code(self, token: Token) -> Block:
        made: Block = {"t": "code", "kind": token.info.strip(), "text": token.content}
        named = NAME_ABOVE.search(self.above)
        if made["kind"] in ("kuifje", "json") and named:
            made["name"] = named[1]
        return made


def blocks_of(path: Path) -> list[Block]:
    return blocks_in(path.read_text())


def blocks_in(text: str) -> list[Block]:
    reader = Reader(text)
    found = []
    while reader.at < len(reader.tokens):
        found.append(reader.block())
    return found


def sections(blocks: list[Block], level: int) -> list[list[Block]]:
    """The blocks from each heading of this level on, up to the next one."""
    found: list[list[Block]] = []
    for block in blocks:
        if block["t"] == "h" and block["level"] <= level:
            found.append([])
        if found:
            found[-1].append(block)
    return [it for it in found if it[0]["level"] == level]


def rows_of(text: str) -> list[list[str]]:
    """The rows of a page's tables, without heads."""
    cells = [[cell.strip() for cell in row.split(" | ")] for row in ROW.findall(text)]
    return [row for row in cells if LINK.search(" ".join(row))]


def gallery() -> list[Block]:
    """The parts of the gallery, each with its studies."""
    parts = []
    for part in (TOP / "examples" / "README.md").read_text().split("\n## ")[1:]:
        studies = []
        for question, study, commands in (row for row in rows_of(part) if len(row) == 3):
            link = LINK.search(study)
            if link and link[2].endswith("/README.md"):
                studies.append({"name": link[1], "question": question, "commands": re.findall(r"`(\w+)`", commands)})
        if studies:
            parts.append({"title": part.split("\n")[0], "studies": studies})
    return parts


def exercises_of(number: int) -> list[Block]:
    """A lesson's exercises, each with what is asked and its solution."""
    tasks = [it for it in blocks_of(TOP / "course" / "exercises" / f"{number}.md") if it["t"] == "list"]
    asked: list[list[Block]] = [item for it in tasks for item in it["items"]]
    solved: list[list[Block]] = []
    for block in blocks_of(TOP / "course" / "solutions" / f"{number}.md"):
        first = block["c"][0] if block["t"] == "p" and block["c"] else None
        if isinstance(first, dict) and first["t"] == "strong" and text_of(first["c"]) == f"{len(solved) + 1}.":
            solved.append([])
            block["c"] = block["c"][1:]
        if solved:
            solved[-1].append(block)
    if len(asked) != len(solved):
        sys.exit(f"content: lesson {number} has {len(asked)} exercises and {len(solved)} solutions")
    return [{"asked": question, "solved": solution} for question, solution in zip(asked, solved)]


def quiz_of(number: int) -> list[Block]:
    """A lesson's questions, each with what is asked and its answer, which its page hides."""
    text = (TOP / "course" / "quiz" / f"{number}.md").read_text()
    found = QUESTION.findall(text)
    if [label for label, _, _ in found] != [str(i + 1) for i in range(len(found))] or text.count("<details>") != len(found) or not found:
        sys.exit(f"content: the questions of lesson {number} have another form")
    return [{"asked": blocks_in(asked), "solved": blocks_in(solved)} for _, asked, solved in found]


def lessons() -> list[Block]:
    found = []
    for blocks in sections(blocks_of(TOP / "docs" / "COURSE.md"), 2):
        number = re.match(r"(\d+)\. ", text_of(blocks[0]["c"]))
        if number:
            asked = {"exercises": exercises_of(int(number[1])), "quiz": quiz_of(int(number[1]))}
            found.append({"title": text_of(blocks[0]["c"]), "id": blocks[0]["id"], "blocks": blocks[1:], **asked})
    return found


def refusals() -> list[Block]:
    """What REFUSALS.md says of each refusal, with its status and a pattern of what its line ends with. The package for Python has the texts."""
    found = []
    for key, said in json.loads((TOP / "python" / "src" / "kuifje" / "refusals.json").read_text()).items():
        status, _, name = key.partition(" ")
        pattern = re.escape(name).replace("\\ ", " ").replace("\\-", "-").replace("20000", r"\d+")
        pattern = re.sub(r"\b[CPN]\b", r"\\d+", pattern).replace(r"\.\.", ".*")
        found.append({"status": int(status), "pattern": pattern, **said})
    return found


def files() -> dict[str, str]:
    """The programs and tables by their names."""
    found = [path for folder in ("examples", "course") for path in sorted((TOP / folder).rglob("*")) if path.suffix in (".kf", ".json")]
    return {str(path.relative_to(TOP)): path.read_text() for path in found}


def main() -> None:
    content: Block = {
        "version": (TOP / "VERSION").read_text().strip(),
        "files": files(),
        "gallery": gallery(),
        "studies": {path.parent.name: blocks_of(path) for path in sorted((TOP / "examples").glob("*/README.md"))},
        "lessons": lessons(),
        "pages": {name: blocks_of(TOP / "docs" / f"{name}.md") for name in PAGES},
        "refusals": refusals(),
    }
    named = {study["name"] for part in content["gallery"] for study in part["studies"]}
    if named != set(content["studies"]):
        sys.exit(f"content: the gallery's index and its folders differ in {sorted(named ^ set(content['studies']))}")
    Path(sys.argv[1]).write_text(json.dumps(content, ensure_ascii=False, separators=(",", ":")))


main()
