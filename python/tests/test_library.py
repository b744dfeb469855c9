"""The C library is called as its header says: a stand-in in C that answers with what it was called with."""

import os
import shutil
import subprocess
import sys

import pytest

from kuifje._library import LIBRARY, NAME, Library, load

STAND_IN = r"""
#include <stddef.h>
#include <stdint.h>
#include <string.h>
struct span { size_t from, end; };
struct file { struct span name, contents; };
struct lengths { size_t out, err; };
/* Writes its words to out, each with a line end, and "name=contents" of each file to err; the status is the number of words. The answer to
   the word "long" is 3,000,000 letters. */
uint8_t kuifje_run(const uint8_t *bytes, size_t n, const struct span *words, size_t words_n, const struct file *files, size_t files_n,
                   uint8_t *out, size_t out_n, uint8_t *err, size_t err_n, struct lengths *lengths) {
    (void)n;
    lengths->out = lengths->err = 0;
    for (size_t i = 0; i < words_n; i++) {
        size_t length = words[i].end - words[i].from;
        if (length == 4 && memcmp(bytes + words[i].from, "long", 4) == 0) {
            lengths->out = 3000000;
            memset(out, 'a', out_n < 3000000 ? out_n : 3000000);
            return 0;
        }
        memcpy(out + lengths->out, bytes + words[i].from, length);
        out[lengths->out + length] = '\n';
        lengths->out += length + 1;
    }
    for (size_t i = 0; i < files_n; i++) {
        struct span parts[2] = {files[i].name, files[i].contents};
        for (int k = 0; k < 2; k++) {
            memcpy(err + lengths->err, bytes + parts[k].from, parts[k].end - parts[k].from);
            lengths->err += parts[k].end - parts[k].from;
            err[lengths->err++] = k ? '\n' : '=';
        }
    }
    (void)err_n;
    return (uint8_t)words_n;
}
uint32_t kuifje_version(void) { return VERSION; }
"""


def built_as(folder, version):
    compiler = shutil.which("cc") or shutil.which("gcc")
    if compiler is None:
        pytest.skip("there is no C compiler")
    (folder / "stand_in.c").write_text(STAND_IN)
    path = folder / f"stand_in_{version}.so"
    subprocess.run([compiler, "-shared", "-fPIC", f"-DVERSION={version}", "-o", path, folder / "stand_in.c"], check=True)
    return str(path)


def test_a_call_hands_over_words_and_files(tmp_path):
    library = Library(built_as(tmp_path, 1000))
    assert library.run(["hyper", "é.kf"], {"é.kf": b"var\0x", "b": b""}) == (3, "kuifje\nhyper\né.kf\n".encode(), "é.kf=var\0x\nb=\n".encode())
    assert library.run([], {}) == (1, b"kuifje\n", b"")
    assert library.run(["long"], {}) == (0, b"a" * 3_000_000, b"")


def test_the_environment_names_the_library(tmp_path, monkeypatch):
    monkeypatch.setenv(LIBRARY, built_as(tmp_path, 2001))
    assert load().run(["x"], {})[0] == 2


def test_the_systems_library_is_found_by_its_name(tmp_path):
    """Where it stands is what this process has mapped; where there is none there is none."""
    built = built_as(tmp_path, 1000)
    shutil.copy(built, tmp_path / NAME)
    script = "from kuifje._library import load; library = load(); print(library and library.path)"
    for folder, wanted in ((tmp_path, str(tmp_path / NAME)), (tmp_path / "empty", None)):
        environment = {"PYTHONPATH": os.pathsep.join(sys.path), "LD_LIBRARY_PATH": str(folder)}
        found = subprocess.run([sys.executable, "-c", script], env=environment, capture_output=True, text=True, check=True).stdout.strip()
        assert found == wanted or wanted is None and (found == "None" or NAME in found)


def test_another_major_version_is_refused(tmp_path):
    with pytest.raises(OSError):
        Library(built_as(tmp_path, 1_000_000))
