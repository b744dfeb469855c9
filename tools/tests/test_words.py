"""`.ci/words` sees a version that is another, and words of pages that aren't the field's."""

import pytest
from conftest import Repository


def test_nothing_is_found_where_nothing_is_wrong(repository: Repository) -> None:
    repository.passes(".ci/words")


@pytest.mark.parametrize(
    "name, old, new, place",
    [
        ("VERSION", "0.", "7.", "the version of VERSION: has ['7."),
        (
            "python/pyproject.toml",
            'attr = "kuifje.__version__"',
            'attr = "kuifje.version"',
            "what pyproject.toml takes the version from: has ['kuifje.version']",
        ),
        ("python/src/kuifje/__init__.py", '__version__ = "0.', '__version__ = "7.', "__version__ of the Python package: has ['7."),
        ("share/textmate/package.json", '"version": "0.', '"version": "7.', "the version of textmate/package.json: has ['7."),
        ("share/man/kuifje.1", '.Os "kuifje 0.', '.Os "kuifje 7.', "the version of kuifje.1: has ['7."),
        ("crates/kuifje_c/src/version.rt", "const MAJOR: u32 = 0;", "const MAJOR: u32 = 7;", "the version of kuifje_c: has ['7."),
        ("include/kuifje.h", "#define KUIFJE_VERSION ", "#define KUIFJE_VERSION 7", "the version of kuifje.h"),
    ],
)
def test_a_version_that_is_another(repository: Repository, name: str, old: str, new: str, place: str) -> None:
    repository.spoil(name, old, new)
    repository.refuses(".ci/words", place)


def test_a_phrase_that_was_replaced_and_a_page_without_the_glossary(repository: Repository) -> None:
    repository.spoil("docs/COSTS.md", "\n\n", "\n\nAn attacker has an equal chance.\n\n")
    repository.refuses(".ci/words", "docs/COSTS.md:3: 'equal chance' was replaced: equal probability")
    repository.restore()
    repository.write("docs/MORE.md", "# More\n")
    repository.refuses(".ci/words", "docs/MORE.md: no link to the glossary")
