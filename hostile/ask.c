/* Trials of kuifje_ask (include/kuifje_ask.h), in C and in C++. Without a word it runs them all, and ends with 1 where one isn't passed.
 *
 * kuifje_run and what allocates are the linker's --wrap's: calls are counted, an answer may be made up, and each allocation refused in turn.
 * tools/gate/hostile/library.py also has it as a shared library, of which it calls `asked` and `freed`. */
#include "../include/kuifje_ask.h"
#include "allocations.h"
#include <stdio.h>

#ifdef __cplusplus
extern "C" {
#endif

uint8_t __real_kuifje_run(const uint8_t *bytes, size_t bytes_length, const struct kuifje_span *words, size_t words_length,
                          const struct kuifje_file *files, size_t files_length, uint8_t *out, size_t out_length, uint8_t *err,
                          size_t err_length, struct kuifje_lengths *lengths);
uint8_t __wrap_kuifje_run(const uint8_t *bytes, size_t bytes_length, const struct kuifje_span *words, size_t words_length,
                          const struct kuifje_file *files, size_t files_length, uint8_t *out, size_t out_length, uint8_t *err,
                          size_t err_length, struct kuifje_lengths *lengths);
int asked_of(size_t argc, const char *const *argv, const struct kuifje_named_file *files, size_t files_length, struct kuifje_answer *answer);
void freed(struct kuifje_answer *answer);
size_t runs_of(void);

static size_t runs;                  /* how often kuifje_run was called */
static int is_made_up;               /* whether its answer is, with these lengths and this status */
static struct kuifje_lengths made_up;
static uint8_t made_up_status;

/* Byte i of an answer that is made up; no such byte is 0. */
static uint8_t made_up_byte(size_t i)
{
    return (uint8_t)(1 + i % 251);
}

uint8_t __wrap_kuifje_run(const uint8_t *bytes, size_t bytes_length, const struct kuifje_span *words, size_t words_length,
                          const struct kuifje_file *files, size_t files_length, uint8_t *out, size_t out_length, uint8_t *err,
                          size_t err_length, struct kuifje_lengths *lengths)
{
    size_t i;
    runs++;
    if (!is_made_up)
        return __real_kuifje_run(bytes, bytes_length, words, words_length, files, files_length, out, out_length, err, err_length, lengths);
    for (i = 0; i < out_length && i < made_up.out; i++)
        out[i] = made_up_byte(i);
    for (i = 0; i < err_length && i < made_up.err; i++)
        err[i] = made_up_byte(i + 1);
    *lengths = made_up;
    return made_up_status;
}

int asked_of(size_t argc, const char *const *argv, const struct kuifje_named_file *files, size_t files_length, struct kuifje_answer *answer)
{
    runs = 0;
    return kuifje_ask(argc, argv, files, files_length, answer);
}

void freed(struct kuifje_answer *answer)
{
    kuifje_free(answer);
}

size_t runs_of(void)
{
    return runs;
}

#ifdef __cplusplus
}
#endif

static void must(int holds, const char *what)
{
    if (!holds) {
        fprintf(stderr, "ask: %s\n", what);
        exit(EXIT_FAILURE);
    }
}

/* ---- what a call may be given */

#define WANT "kuifje: want of memory\n"
#define BAD "kuifje: a word or a name is null or isn't UTF-8\n"
#define USAGE "kuifje: usage: kuifje COMMAND [FILES] [--gain G] [--turns N] [--json]\n"
#define COIN "var x : bool := flip 1/2;\n"
#define HYPER "target x\nscale 2\ninners 1\ninner 0 outer 1\n  false 1/2\n  true 1/2\n"

static const char *const HYPER_OF_A[] = {"kuifje", "hyper", "a.kf"};

/* Asks, compares status, out and err, each with its length and its 0, and frees the answer, after which nothing is kept. */
static void gives(const char *what, size_t argc, const char *const *argv, const struct kuifje_named_file *files, size_t files_length,
                  int status, const char *out, const char *err)
{
    struct kuifje_answer answer;
    memset(&answer, 0xa5, sizeof answer);
    counts = 1;
    must(kuifje_ask(argc, argv, files, files_length, &answer) == status && answer.status == status, what);
    must(answer.out_length == strlen(out) && memcmp(answer.out, out, strlen(out) + 1) == 0, what);
    must(answer.err_length == strlen(err) && memcmp(answer.err, err, strlen(err) + 1) == 0, what);
    kuifje_free(&answer);
    must(answer.status == status && answer.out[0] == 0 && answer.err[0] == 0 && answer.out_length == 0 && answer.err_length == 0, "free");
    kuifje_free(&answer);
    counts = 0;
    must(kept == 0, what);
}

static void asks_of_a(const char *what, const void *bytes, size_t length, int status, const char *out, const char *err)
{
    struct kuifje_named_file file;
    file.name = "a.kf";
    file.bytes = bytes;
    file.length = length;
    gives(what, 3, HYPER_OF_A, &file, 1, status, out, err);
}

static void try_words(void)
{
    static const char *const words[] = {"kuifje", "hyper", "\xff", NULL};
    struct kuifje_named_file files[] = {{"a.kf", COIN, sizeof COIN - 1}, {NULL, "", 0}, {"\xc0\x80", "", 0}};
    gives("no words", 0, NULL, NULL, 0, KUIFJE_USAGE, "", USAGE);
    gives("no words, from arrays", 0, words, files, 0, KUIFJE_USAGE, "", USAGE);
    gives("no command", 1, words, NULL, 0, KUIFJE_USAGE, "", USAGE);
    gives("no files", 3, HYPER_OF_A, NULL, 0, KUIFJE_READ_FAILED, "", "kuifje: a.kf: read failed\n");
    gives("words are null", 3, NULL, files, 1, KUIFJE_BADLY_CALLED, "", BAD);
    gives("files are null", 3, HYPER_OF_A, NULL, 1, KUIFJE_BADLY_CALLED, "", BAD);
    gives("a word is null", 4, words, files, 1, KUIFJE_BADLY_CALLED, "", BAD);
    gives("a word isn't UTF-8", 3, words, files, 1, KUIFJE_BADLY_CALLED, "", BAD);
    gives("a name is null", 3, HYPER_OF_A, files, 2, KUIFJE_BADLY_CALLED, "", BAD);
    files[1] = files[2];
    gives("a name isn't UTF-8", 3, HYPER_OF_A, files, 2, KUIFJE_BADLY_CALLED, "", BAD);
}

static void try_files(void)
{
    static const char empty_name[] = "", *const of_it[] = {"kuifje", "hyper", empty_name};
    struct kuifje_named_file files[] = {{"a.kf", COIN, sizeof COIN - 1}, {"a.kf", "@", 1}, {"b.kf", NULL, 0}, {"", COIN, sizeof COIN - 1}};
    gives("one file", 3, HYPER_OF_A, files, 1, KUIFJE_ANSWERED, HYPER, "");
    gives("two with one name", 3, HYPER_OF_A, files, 2, KUIFJE_ANSWERED, HYPER, "");
    gives("the other of two with one name", 3, HYPER_OF_A, files + 1, 3, KUIFJE_NO_PROGRAM, "", "kuifje: a.kf:1:1: Char\n");
    gives("a name without letters", 3, of_it, files, 4, KUIFJE_ANSWERED, HYPER, "");
    asks_of_a("a file without bytes, from null", NULL, 0, KUIFJE_NO_PROGRAM, "", "kuifje: a.kf:1:1: NoVariable\n");
    asks_of_a("a file without bytes", "@", 0, KUIFJE_NO_PROGRAM, "", "kuifje: a.kf:1:1: NoVariable\n");
    asks_of_a("null with a length", NULL, 1, KUIFJE_BADLY_CALLED, "", BAD);
    asks_of_a("a byte 0", "#\n\0\n", 4, KUIFJE_NO_PROGRAM, "", "kuifje: a.kf:2:1: Char\n");
    asks_of_a("a byte 0 after the length", COIN, sizeof COIN - 1, KUIFJE_ANSWERED, HYPER, "");
    asks_of_a("no UTF-8", "#\n\xff", 3, KUIFJE_NO_PROGRAM, "", "kuifje: a.kf:2:1: Utf8\n");
}

/* Lengths that no memory has are refused before anything is allocated, copied or run. */
static void try_sizes(void)
{
    const size_t half = SIZE_MAX / 2 + 1;
    struct kuifje_named_file files[] = {{"a.kf", COIN, half}, {"b.kf", COIN, half}};
    static const size_t lengths[] = {SIZE_MAX, SIZE_MAX - 1, SIZE_MAX - 64, SIZE_MAX / 2 + 1, SIZE_MAX / 2};
    size_t i;
    asked = 0;
    runs = 0;
    for (i = 0; i < sizeof lengths / sizeof *lengths; i++)
        asks_of_a("a length that no memory has", COIN, lengths[i], KUIFJE_WANT_OF_MEMORY, "", WANT);
    gives("lengths whose sum is 0", 3, HYPER_OF_A, files, 2, KUIFJE_WANT_OF_MEMORY, "", WANT);
    must(asked == 0 && runs == 0, "lengths that no memory has: something was allocated or run");
}

/* ---- answers of every length round that of the first buffers */

static int is_made(const char *text, size_t length, size_t from)
{
    size_t i;
    for (i = 0; i < length; i++)
        if ((uint8_t)text[i] != made_up_byte(i + from))
            return 0;
    return text[length] == 0;
}

static void make_up(size_t out, size_t err)
{
    struct kuifje_answer answer;
    made_up.out = out;
    made_up.err = err;
    runs = 0;
    must(kuifje_ask(3, HYPER_OF_A, NULL, 0, &answer) == made_up_status && answer.status == made_up_status, "another status");
    must(answer.out_length == out && is_made(answer.out, out, 0), "another out");
    must(answer.err_length == err && is_made(answer.err, err, 1), "another err");
    must(runs == (out <= 65536 && err <= 4096 ? 1 : 2), "not run once, or twice where the first buffers don't do");
    kuifje_free(&answer);
}

static void try_rooms(void)
{
    static const size_t outs[] = {0, 1, 65535, 65536, 65537, 1000000}, errs[] = {0, 1, 4095, 4096, 4097, 1000000};
    struct kuifje_answer answer;
    size_t i, j;
    is_made_up = 1;
    for (i = 0; i < sizeof outs / sizeof *outs; i++)
        for (j = 0; j < sizeof errs / sizeof *errs; j++) {
            made_up_status = (uint8_t)(i + j);
            make_up(outs[i], errs[j]);
        }
    for (i = 0; i < 3; i++) {
        made_up.out = i == 1 ? 0 : SIZE_MAX - 1;
        made_up.err = i == 0 ? 0 : SIZE_MAX - 1;
        must(kuifje_ask(3, HYPER_OF_A, NULL, 0, &answer) == KUIFJE_WANT_OF_MEMORY && answer.memory == NULL, "lengths that no memory has");
    }
    is_made_up = 0;
}

/* ---- each allocation refused in turn */

/* A refused allocation gives 12 and keeps nothing, or the answer, where there was no need of it. */
static void refuse(size_t out_length, int status)
{
    struct kuifje_named_file file = {"a.kf", COIN, sizeof COIN - 1};
    struct kuifje_answer answer;
    long wanted = 0, unneeded = 0;
    for (refused = 1;; refused++) {
        int seen;
        asked = 0;
        counts = 1;
        seen = kuifje_ask(3, HYPER_OF_A, &file, 1, &answer);
        must(seen == answer.status && answer.out[answer.out_length] == 0 && answer.err[answer.err_length] == 0, "no 0 after the answer");
        if (seen == KUIFJE_WANT_OF_MEMORY) {
            must(kept == 0 && answer.memory == NULL, "something is kept");
            must(answer.out_length == 0 && strcmp(answer.err, WANT) == 0, "no line on want of memory");
            wanted++;
        } else {
            must(seen == status && answer.out_length == out_length && kept == 1, "another answer where memory is refused");
            unneeded += asked >= refused;
        }
        kuifje_free(&answer);
        counts = 0;
        must(kept == 0, "something is kept of a freed answer");
        if (asked < refused)
            break;
    }
    must(wanted >= 2 && unneeded == 1, "no allocation was refused");
    printf("%ld allocations refused, %ld of them wanted\n", refused - 1, wanted);
    refused = 0;
}

static void try_refusals(void)
{
    refuse(sizeof HYPER - 1, KUIFJE_ANSWERED);
    is_made_up = 1;
    made_up.out = 100000;
    made_up.err = 100000;
    made_up_status = KUIFJE_NO;
    refuse(made_up.out, KUIFJE_NO);
    is_made_up = 0;
}

int main(void)
{
    try_words();
    try_files();
    try_sizes();
    try_rooms();
    try_refusals();
    return EXIT_SUCCESS;
}
