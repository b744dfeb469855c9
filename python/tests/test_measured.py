"""Compiled code that is measured: classes that are worked out by hand, two tracers that agree, and what is refused."""

import shutil
from fractions import Fraction
from pathlib import Path

import pytest
from measured_code import EXAMPLES, HEAD, example, need, written

from kuifje.measured import MODELS, Build, Limits, Unmeasured, bytes_of, measure
from kuifje.measured.measurement import Measurement
from kuifje.measured.tools import Tools, default_tools

pytestmark = pytest.mark.usefixtures("built")


def chains():
    """How many nodes a name meets in its chain of the table, and whether it is found: what control flow shows, worked out here."""
    names = [3, 17, 99, 256, 301, 512, 700, 801, 850, 901, 1000, 1023]
    table = [[] for _ in range(8)]
    for name in names:
        table[(name * 40503 % 2**32 >> 7) % 8].insert(0, name)
    seen = set()
    for name in range(1024):
        chain = table[(name * 40503 >> 7) % 8]
        seen.add((chain.index(name) + 1, True) if name in chain else (len(chain), False))
    return len(seen)


FEATURES = set(Path("/proc/cpuinfo").read_text().split())
"""What this processor has, by the system's words."""

# Of each code how many classes a model sees, with how it is known. `levels` are those at which it is one and the same for both compilers.
FUNCTIONS = [
    ("comparison", "comparison", "control-flow", 5, "the place of the first difference of four, or none", "02"),
    ("comparison", "comparison_whole", "constant-time", 1, "no branch, and all addresses are the same", "02"),
    ("unpadding", "unpadding", "control-flow", 9, "two errors, the place of the zero in 2 to 7, or none", "02"),
    ("unpadding", "unpadding_whole", "constant-time", 1, "no branch, and all addresses are the same", "02"),
    ("exponent", "exponent", "control-flow", 4096, "each bit decides a branch", "02"),
    ("sbox", "sbox", "control-flow", 1, "a look-up branches nowhere", "02"),
    ("sbox", "sbox", "lines", 16, "sixteen words of 4 bytes to a line of 64", "02"),
    ("sbox", "sbox", "banks", 256, "a bank of 4 bytes is one word", "02"),
    ("sbox", "sbox", "pages", 1, "the table has 1,024 bytes, aligned to 64; it lies in one page", "2"),
    ("base64", "base64", "lines", 4, "of each character its line: letters, or digits and signs", "02"),
    ("base64", "base64", "constant-time", 4096, "each character has its own address", "02"),
    ("base64", "base64_arithmetic", "constant-time", 1, "no branch and no table", "02"),
    ("hash_table", "hash_table", "control-flow", chains(), "the nodes that are met, and whether the name is found", "02"),
    ("hash_table", "hash_table_whole", "constant-time", 1, "all names are compared", "02"),
    ("reduction", "reduction", "control-flow", 2, "without optimisation the subtraction is a branch", "0"),
    ("reduction", "reduction_mask", "control-flow", 1, "there is no branch", "02"),
    ("division", "division", "control-flow", 1, "a division is one instruction", "02"),
    ("division", "division", "constant-time", 3329, "each coefficient has its own dividend", "02"),
]
QUICK = [row for row in FUNCTIONS if row[1] in ("comparison", "sbox", "hash_table", "division") and row[2] != "banks"]


@pytest.mark.parametrize("harness, code, model, classes, why, levels", QUICK)
def test_classes_are_those_worked_out_by_hand(harness, code, model, classes, why, levels):
    assert example(harness, code).classes(model) == classes, why


@pytest.mark.whole
@pytest.mark.parametrize("compiler", ["gcc", "clang"])
@pytest.mark.parametrize("harness, code, model, classes, why, levels", FUNCTIONS)
def test_classes_by_compiler_and_level(harness, code, model, classes, why, levels, compiler):
    for level in levels:
        assert example(harness, code, compiler, level).classes(model) == classes, (why, level)


@pytest.mark.whole
def test_a_compiler_takes_back_what_the_source_says():
    """In the assembly that gcc 12 makes of the power that always multiplies, the product stands after a jump; clang 14 selects by cmov."""
    assert example("exponent", "exponent_always", "gcc").classes("control-flow") == 4096
    assert example("exponent", "exponent_always", "clang").classes("control-flow") == 1


def test_a_constant_divisor_divides_nowhere():
    assert example("division", "division_constant").classes("constant-time") == 1


@pytest.mark.parametrize("code", ["hash_table", pytest.param("hash_table_whole", marks=pytest.mark.whole)])
def test_both_tracers_agree_on_every_run_under_every_model(code):
    measured = example("hash_table", code, seconds=None)
    assert measured.compared == 1024 and measured.stepped is not None
    for model in MODELS.values():
        assert measured.stepped.partition(model) == measured.emulated.partition(model)


@pytest.mark.whole
@pytest.mark.parametrize("compiler", ["gcc", "clang"])
@pytest.mark.parametrize("code", sorted({(row[0], row[1]) for row in FUNCTIONS if row[0] != "reduction"}))
def test_both_tracers_agree_on_all_functions(code, compiler):
    """All but the one whose 40,961 runs take too long by single steps."""
    for level in "02":
        measured = example(*code, compiler, level, seconds=None)
        assert measured.compared == measured.emulated.run_count
        for model in MODELS.values():
            if not model.needs_operands:
                assert measured.stepped.partition(model) == measured.emulated.partition(model)


def test_operands_are_those_of_single_steps():
    """The run that stops at divisions alone, put among the emulator's events, against single steps that see all of it."""
    measured = example("division", "division", seconds=None)
    model = MODELS["constant-time"]
    assert measured.compared == 3329
    assert measured.traces_for(model).partition(model) == measured.stepped.partition(model)
    told = measured.lines(model).told
    assert [(str(t.place), t.classes) for t in told] == [("division.c:6", 3328)]


MASKED = """
uint8_t table[16], masks[16];
KUIFJE_SECRET(uint8_t, x, 1, 0, 15);
KUIFJE_NOISE(uint8_t, r, 1, 0, 15);
volatile uint8_t sink;
KUIFJE_MEASURE {
    sink = table[x[0] ^ r[0]];
#ifdef TWICE
    sink = masks[r[0] >> 2];
#endif
    return 0;
}
"""


def test_noise_hides_a_secret_unless_it_is_shown_itself(tmp_path):
    """x ^ r is uniform whatever x is. With r >> 2 beside it, the upper two bits of x are known, and nothing of the lower two."""
    hidden = written(tmp_path, MASKED)
    assert (hidden.capacity("constant-time"), hidden.leak(model="constant-time").posterior_vulnerability) == (1, Fraction(1, 16))
    shown = written(tmp_path, MASKED, flags=("-DTWICE",))
    assert (shown.capacity("constant-time"), shown.leak(model="constant-time").posterior_vulnerability) == (4, Fraction(1, 4))
    assert shown.lines("constant-time").bits.low == shown.lines("constant-time").bits.high == 2


def test_public_inputs_are_known_and_the_worst_is_named(tmp_path):
    """The lowest b bits of x decide branches: 2^b classes for each b. Together with b there would be more, which nobody asks."""
    text = """
    KUIFJE_SECRET(uint8_t, x, 1, 0, 7);
    KUIFJE_PUBLIC(uint8_t, b, 1, 0, 2);
    volatile int sink;
    KUIFJE_MEASURE {
        for (int i = 0; i < b[0]; i++)
            if (x[0] >> i & 1)
                sink = i;
        return 0;
    }
    """
    measured = written(tmp_path, text)
    assert [measured.partition("control-flow", public).count for public in measured.publics] == [1, 2, 4]
    public, capacity = measured.worst("control-flow", lambda program: program.capacity())
    assert (measured.public_text(public), capacity) == ("b = 2", 4)
    assert measured.leak(model="control-flow").posterior_vulnerability == Fraction(4, 8)


def test_weights_are_the_prior(tmp_path):
    """Of weights 5, 1, 1, 1 a branch shows whether it is the first: one guess is right with 5/8 before, and with (5 + 1)/8 after."""
    text = """
    KUIFJE_SECRET(uint8_t, x, 1, 0, 3);
    KUIFJE_WEIGHTS(x, 5, 1, 1, 1);
    volatile int sink;
    KUIFJE_MEASURE {
        if (x[0] == 0)
            sink = 1;
        return 0;
    }
    """
    leak = written(tmp_path, text).leak(model="control-flow")
    assert (leak.prior_vulnerability, leak.posterior_vulnerability) == (Fraction(5, 8), Fraction(6, 8))


SYSTEM = """
#include <unistd.h>
KUIFJE_SECRET(uint8_t, x, 1, 0, 7);
char text[8];
KUIFJE_MEASURE {
    kuifje_observe(x[0] / 4);
    kuifje_observe_bytes(text, x[0] % 2);
    return write(1, text, x[0] % 4);
}
"""


def test_what_is_sent_returned_and_asked_of_the_system(tmp_path):
    """Sent are x / 4 and x % 2 bytes; returned is x % 4; the system is asked to write x % 4 bytes."""
    measured = written(tmp_path, SYSTEM)
    assert (measured.classes("sent"), measured.classes("returned"), measured.classes("system-calls")) == (4, 8, 8)
    sent = measured.partition("sent").classes
    assert [list(sent).index(c) for c in sent] == [0, 1, 0, 1, 4, 5, 4, 5]


def test_a_function_of_a_library_by_its_name():
    """With four equal bytes memcmp of this glibc is one comparison, whose result alone differs; strncmp stops where the bytes differ."""
    need("gcc", "qemu-x86_64")
    digits = {"a": bytes_of(3, range(4))}
    public = {"b": b"\1\2\3\0"}
    measured = measure("libc.so.6", "strcasecmp", secret={"a": bytes_of(4, range(0, 2))}, public={"b": b"\1\1\1\0"}, limits=Limits(seconds=0.2))
    assert measured.secrets.size == 16 and measured.classes("returned") > 1
    with pytest.raises(ValueError):
        measure("libc.so.6", "memcmp", public=public)
    assert measure("libc.so.6", "memcmp", secret=digits, public=public, arguments=("a", "b", 3), limits=Limits(seconds=0.2)).classes("sent") == 1


def test_another_processor_by_the_emulator_alone(tmp_path):
    need("aarch64-linux-gnu-gcc", "qemu-aarch64")
    sources = (EXAMPLES / "comparison_harness.c", EXAMPLES / "comparison.c")
    measured = Measurement(Build(sources, target="aarch64"))
    assert measured.stepped is None and measured.classes("control-flow") == 5
    told = measured.lines("control-flow").told
    assert [str(t.place) for t in told] == ["comparison.c:7"]


def test_a_harness_of_another_language(tmp_path):
    need("g++", "gcc", "qemu-x86_64")
    text = """
    #include <string>
    KUIFJE_SECRET(char, name, 2, 'a', 'd');
    KUIFJE_MEASURE { return std::string(name, 2).find('c') == std::string::npos; }
    """
    measured = written(tmp_path, text, "code.cpp", limits={"snapshot": True})
    assert measured.secrets.size == 16 and measured.classes("returned") == 2


@pytest.mark.whole
def test_a_function_in_rust(tmp_path):
    need("rustc", "gcc", "qemu-x86_64")
    (tmp_path / "equal.rs").write_text(
        '#[no_mangle]\npub extern "C" fn equal(a: *const u8, b: *const u8, n: i32) -> i32 {\n    for i in 0..n as usize {\n'
        "        if unsafe { *a.add(i) != *b.add(i) } {\n            return 0;\n        }\n    }\n    1\n}\n"
    )
    measured = Measurement(Build((EXAMPLES / "comparison_harness.c", tmp_path / "equal.rs")), Limits(seconds=0.2))
    assert measured.classes("control-flow") == 5
    assert str(measured.lines("control-flow").told[0].place) == "equal.rs:4"


# ---- what is refused

SECRET = "KUIFJE_SECRET(uint8_t, x, 1, 0, 15);\nvolatile int sink;\n"
REFUSED = {
    "Earlier": (
        "static int known[16];\nKUIFJE_MEASURE {\n    if (known[x[0] & 7])\n        sink = 1;\n    known[x[0] & 7] = 1;\n    return 0;\n}\n",
        "code.c:6",
    ),
    "Unwritten": (
        "__attribute__((noinline)) static int odd(int n) {\n    volatile int a[8];\n    return a[n & 7] & 1;\n}\n"
        "KUIFJE_MEASURE {\n    if (odd(x[0]))\n        sink = 1;\n    return 0;\n}\n",
        "code.c:9",
    ),
    "Clock": ("KUIFJE_MEASURE {\n    if ((__builtin_ia32_rdtsc() >> 4 & 1) == x[0])\n        sink = 1;\n    return 0;\n}\n", "code.c:5"),
    "Random": (
        "long syscall(long, ...);\nKUIFJE_MEASURE {\n    uint8_t r;\n    syscall(318, &r, 1, 0);\n    sink = r ^ x[0];\n    return 0;\n}\n",
        None,
    ),
    "Threads": ("#include <unistd.h>\nKUIFJE_MEASURE {\n    if (x[0] == 3 && !fork())\n        _exit(0);\n    return 0;\n}\n", None),
    "Ended": ("#include <unistd.h>\nKUIFJE_MEASURE {\n    if (x[0] == 3)\n        _exit(0);\n    return 0;\n}\n", None),
    "Waits": ("#include <unistd.h>\nKUIFJE_MEASURE {\n    pause();\n    return x[0];\n}\n", None),
    "Lost": (
        "#include <signal.h>\nstatic void caught(int s) { sink = s; }\n"
        "KUIFJE_MEASURE {\n    signal(SIGUSR1, caught);\n    raise(SIGUSR1);\n    return x[0];\n}\n",
        None,
    ),
    "Large": ("KUIFJE_SECRET(uint8_t, y, 2, 0, 255);\nKUIFJE_MEASURE { return x[0] + y[0]; }\n", None),
    "Crash": ("KUIFJE_MEASURE {\n    sink = 100 / (x[0] - 5);\n    return 0;\n}\n", "code.c:5"),
    "Undecoded": (
        '#include <immintrin.h>\nint table[64];\n__attribute__((target("avx2"))) KUIFJE_MEASURE {\n'
        "    __m256i i = _mm256_set1_epi32(x[0]);\n    sink = _mm256_extract_epi32(_mm256_i32gather_epi32(table, i, 4), 0);\n    return 0;\n}\n",
        "code.c:8",
    ),
    "Endless": ("KUIFJE_MEASURE {\n    while (x[0] == 7) sink = 1;\n    return 0;\n}\n", "code.c:5"),
    "Folded": (
        "static int check(const uint8_t *p) {\n    int r = 0;\n    for (int i = 0; i < 4; i++)\n        r |= p[0] == i;\n    return r;\n}\n"
        "KUIFJE_MEASURE {\n    check(x);\n    return 0;\n}\n",
        None,
    ),
    "Nothing": ("KUIFJE_MEASURE {\n    volatile uint8_t y = x[0];\n    (void)y;\n    return 0;\n}\n", None),
    "Build": ("KUIFJE_MEASURE { return no_such_function(x[0]); }\n", None),
}


@pytest.mark.parametrize("word", REFUSED)
def test_each_cause_is_refused_with_its_word_and_place(tmp_path, word):
    text, place = REFUSED[word]
    with pytest.raises(Unmeasured) as caught:
        written(tmp_path, SECRET + text)
    assert caught.value.word == word and str(caught.value)
    if place is not None:
        assert caught.value.place == place


@pytest.mark.parametrize("declared", ["uint8_t, x, 1, 0, 256", "int8_t, x, 1, -1, 128", "int, x, 1, 5, 4", "uint8_t, x, 0, 0, 4"])
def test_values_that_a_type_has_not_are_refused(tmp_path, declared):
    with pytest.raises(Unmeasured, match="Build|no secret"):
        written(tmp_path, f"KUIFJE_SECRET({declared});\nKUIFJE_MEASURE {{ return x[0]; }}\n")


def test_a_harness_without_a_secret_is_refused(tmp_path):
    with pytest.raises(Unmeasured, match="declares no secret"):
        written(tmp_path, "KUIFJE_MEASURE { return 0; }\n")


def test_code_that_goes_another_way_on_the_processor_is_refused(tmp_path):
    """It asks for a feature that the emulator hasn't; where the processor hasn't, either, both go one way."""
    text = 'KUIFJE_MEASURE {\n    if (__builtin_cpu_supports("avx512f"))\n        sink = x[0];\n    return x[0];\n}\n'
    if "avx512f" not in FEATURES:
        assert written(tmp_path, SECRET + text).classes("control-flow") == 1
        return
    with pytest.raises(Unmeasured) as caught:
        written(tmp_path, SECRET + text)
    assert (caught.value.word, caught.value.place) == ("Disagree", "code.c:5")
    assert written(tmp_path, SECRET + text, limits={"processor": False}).classes("returned") == 16


def test_without_the_processor_what_is_divided_is_not_known(tmp_path):
    measured = written(tmp_path, SECRET + "KUIFJE_MEASURE { return 100 / (x[0] + 1); }\n", limits={"processor": False})
    assert measured.classes("control-flow") == 1
    with pytest.raises(Unmeasured) as caught:
        measured.capacity("constant-time")
    assert caught.value.word == "Divisions"


def test_an_instruction_that_the_emulator_lacks_is_refused(tmp_path):
    with pytest.raises(Unmeasured) as caught:
        written(tmp_path, SECRET + 'KUIFJE_MEASURE {\n    __asm__ volatile("vpxorq %zmm1, %zmm1, %zmm1");\n    return x[0];\n}\n')
    assert (caught.value.word, caught.value.place) == ("Undecoded", "code.c:5")


def test_the_secret_of_a_refusal_is_named(tmp_path):
    with pytest.raises(Unmeasured) as caught:
        written(tmp_path, SECRET + REFUSED["Crash"][0])
    assert caught.value.secret == "x = 5"


def test_with_a_snapshot_memory_is_as_it_was(tmp_path):
    """The first run of all, of 0, has left its mark; so 0 and 8 go one way, and all others the other."""
    measured = written(tmp_path, SECRET + REFUSED["Earlier"][0], limits={"snapshot": True})
    assert measured.classes("control-flow") == 2
    assert [secret for secret, c in enumerate(measured.partition("control-flow").classes) if c == 0] == [0, 8]


@pytest.fixture
def sources(tmp_path):
    """A copy of the tracers' sources, to change a line of."""
    need("gcc", "qemu-x86_64")
    folder = tmp_path / "sources"
    shutil.copytree(default_tools().sources, folder)

    def change(name, old, new):
        text = (folder / name).read_text()
        assert text.count(old) == 1
        (folder / name).write_text(text.replace(old, new))
        return Tools(folder, tmp_path / "kept")

    return change


COUNTED = "    static unsigned count;\n    if (++count % 1000 == 0)\n        return;\n"
LOOP = SECRET + "KUIFJE_MEASURE {\n    for (int i = 0; i < 2000 + x[0]; i++)\n        sink = i;\n    return 0;\n}\n"


@pytest.mark.parametrize(
    "name, line",
    [
        ("emulator.c", "    if (!kf_on || !previous)\n        return;\n    if (repeats) {"),
        ("stepper.c", "    if (i->refused)\n        kf_forbid("),
        ("emulator.c", "    if (from->ends == REPEATS && to == from->last) {"),
    ],
)
def test_a_tracer_that_drops_an_event_in_a_thousand_is_caught(tmp_path, sources, name, line):
    """The loop stores, loads and jumps 2,000 times in each run."""
    tools = sources(name, line, COUNTED + line)
    (tmp_path / "code.c").write_text(HEAD + LOOP)
    with pytest.raises(Unmeasured) as caught:
        Measurement(Build((tmp_path / "code.c",)), Limits(seconds=0.3), tools)
    assert caught.value.word in ("Disagree", "Lost", "Clock")


def test_a_tracer_that_drops_the_same_events_in_each_run_is_caught(tmp_path, sources):
    """Each run is the same when it is repeated, so that only the other tracer can know."""
    sources("emulator.c", "static struct kf_machine machine;", "static struct kf_machine machine;\nstatic unsigned of_run;")
    sources("emulator.c", "        kf_on = 1;\n", "        kf_on = 1;\n        of_run = 0;\n")
    line = "    if (!kf_on || !previous)\n        return;\n    if (repeats) {"
    tools = sources("emulator.c", line, "    if (++of_run % 1000 == 0)\n        return;\n" + line)
    (tmp_path / "code.c").write_text(HEAD + LOOP)
    with pytest.raises(Unmeasured) as caught:
        Measurement(Build((tmp_path / "code.c",)), Limits(seconds=0.3), tools)
    assert caught.value.word == "Disagree"


def test_what_to_install_is_said(tmp_path, monkeypatch):
    (tmp_path / "code.c").write_text(HEAD + LOOP)
    monkeypatch.setenv("PATH", str(tmp_path))
    with pytest.raises(Unmeasured, match="apt-get install qemu-user"):
        Measurement(Build((tmp_path / "code.c",)))
    with pytest.raises(Unmeasured, match="no driver.c"):
        Tools(tmp_path)


# ---- functions of libraries: what was published of them, or what their sources say

LIBRARIES = {
    "sodium_memcmp": (
        "sodium",
        "sodium.h",
        "KUIFJE_SECRET(uint8_t, a, 4, 0, 3);\nuint8_t b[4] = {3, 1, 2, 1};",
        "sodium_memcmp(a, b, 4)",
        "constant-time",
        1,
    ),
    "CRYPTO_memcmp": (
        "crypto",
        "openssl/crypto.h",
        "KUIFJE_SECRET(uint8_t, a, 4, 0, 3);\nuint8_t b[4] = {3, 1, 2, 1};",
        "CRYPTO_memcmp(a, b, 4)",
        "constant-time",
        1,
    ),
    "mpn_sec_powm": (
        "gmp",
        "gmp.h",
        "KUIFJE_SECRET(uint16_t, e, 1, 1, 255);\nmp_limb_t scratch[4096], g = 7, p = 65537, r;",
        "({ mp_limb_t x = e[0]; mpn_sec_powm(&r, &g, 1, &x, 8, &p, 1, scratch); 0; })",
        "lines",
        1,
    ),
    "EVP_DecodeBlock": (
        "crypto",
        "openssl/evp.h",
        "KUIFJE_SECRET(uint8_t, c, 2, 'A', 'Z');\nuint8_t text[5] = \"AAAA\", out[8];",
        "({ text[0] = c[0]; text[1] = c[1]; EVP_DecodeBlock(out, text, 4); })",
        "constant-time",
        26 * 26,
    ),
    "aes128": (
        "nettle",
        "nettle/aes.h",
        "KUIFJE_SECRET(uint8_t, k, 1, 0, 255);\nuint8_t key[16], in[16], out[16];\nstruct aes128_ctx c;",
        "({ key[0] = k[0]; aes128_set_encrypt_key(&c, key); aes128_encrypt(&c, 16, out, in); 0; })",
        "control-flow",
        1,
    ),
}


@pytest.mark.whole
@pytest.mark.parametrize("name", LIBRARIES)
def test_functions_of_libraries(tmp_path, name):
    """Those that promise constant time show nothing; a table of base64 shows each character by its address; AES by tables branches nowhere."""
    library, header, declared, call, model, classes = LIBRARIES[name]
    if not (Path("/usr/include") / header).exists() and not list(Path("/usr/include").glob(f"*-linux-gnu/{header}")):
        pytest.skip(f"there is no {header}")
    text = f"#include <{header}>\n{declared}\nvolatile long sink;\nKUIFJE_MEASURE {{\n    sink = {call};\n    return 0;\n}}\n"
    measured = written(tmp_path, text, libraries=(f"-l{library}",), flags=("-w", "-fno-builtin"))
    assert measured.classes(model) == classes


@pytest.mark.whole
def test_a_modular_power_of_openssl_needs_a_snapshot(tmp_path):
    """Its memory comes from malloc, whose state depends on earlier runs. With memory as it was, the power in constant time shows nothing."""
    if not Path("/usr/include/openssl/bn.h").exists():
        pytest.skip("there is no openssl/bn.h")
    text = """
    #include <openssl/bn.h>
    KUIFJE_SECRET(uint16_t, e, 1, 1, 63);
    BIGNUM *g, *x, *p, *r;
    BN_CTX *c;
    KUIFJE_MEASURE {
        if (!c) {
            g = BN_new(), x = BN_new(), p = BN_new(), r = BN_new(), c = BN_CTX_new();
            BN_set_word(g, 7), BN_set_word(p, 65537);
        }
        BN_set_word(x, e[0]);
        BN_set_flags(x, BN_FLG_CONSTTIME);
        return BN_mod_exp_mont_consttime(r, g, x, p, c, 0);
    }
    """
    with pytest.raises(Unmeasured, match="Earlier"):
        written(tmp_path, text, libraries=("-lcrypto",))
    measured = written(tmp_path, text, libraries=("-lcrypto",), limits={"snapshot": True})
    assert (measured.classes("control-flow"), measured.classes("lines")) == (1, 1)


@pytest.mark.whole
def test_two_bytes_of_a_key_of_a_table_aes(tmp_path):
    """All 65,536 keys: the first round's look-ups show each byte of them, since a line has sixteen entries, and the key schedule the rest."""
    if not Path("/usr/include/nettle/aes.h").exists():
        pytest.skip("there is no nettle/aes.h")
    text = """
    #include <nettle/aes.h>
    KUIFJE_SECRET(uint8_t, k, 2, 0, 255);
    uint8_t key[16], in[16], out[16];
    struct aes128_ctx c;
    KUIFJE_MEASURE {
        key[0] = k[0], key[5] = k[1];
        aes128_set_encrypt_key(&c, key);
        aes128_encrypt(&c, 16, out, in);
        return 0;
    }
    """
    measured = written(tmp_path, text, libraries=("-lnettle",))
    assert measured.classes("control-flow") == 1 and measured.capacity("constant-time") == 65536


def test_exceptions_and_atomic_instructions_are_followed_by_both_tracers(tmp_path):
    """What throws below 0 goes one way for -2 and -1; of 0, 1 and 2 a loop shows how often it turns. Exceptions are counted atomically."""
    need("g++", "gcc", "qemu-x86_64")
    text = """
    #include <stdexcept>
    KUIFJE_SECRET(int, x, 1, -2, 2);
    volatile int sink;
    static void turn(int n)
    {
        if (n < 0)
            throw std::runtime_error("below 0");
        for (int i = 0; i < n; i++)
            sink = i;
    }
    KUIFJE_MEASURE
    {
        try {
            turn(x[0]);
        } catch (const std::exception &) {
            sink = -1;
        }
        __atomic_fetch_add(&sink, 1, __ATOMIC_SEQ_CST);
        return 0;
    }
    """
    measured = written(tmp_path, text, "code.cpp", limits={"snapshot": True, "seconds": None})
    assert measured.compared == 5 and measured.classes("control-flow") == 4


def test_a_fused_multiplication_reads_one_number(tmp_path):
    """Sixteen numbers of 8 bytes in two lines of 64, and sixteen of 4 in one. The emulator reads 16 bytes of each, which the processor doesn't."""
    if "fma" not in FEATURES:
        return  # there is no such instruction to compare
    text = """
    KUIFJE_SECRET(int, i, 1, 0, 15);
    _Alignas(64) double wide[16];
    _Alignas(64) float narrow[16];
    double r;
    float s;
    __attribute__((target("fma"))) KUIFJE_MEASURE
    {
        r = __builtin_fma(r, r, wide[i[0]]);
        s = __builtin_fmaf(s, s, narrow[i[0]]);
        return 0;
    }
    """
    measured = written(tmp_path, text, limits={"seconds": None})
    assert measured.compared == 16
    assert (measured.classes("lines"), measured.classes("lines:32"), measured.classes("constant-time")) == (2, 4, 16)
