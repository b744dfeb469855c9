/* Kuifje as a library: what a program gives away, in exact fractions.
 *
 * kuifje_run does what the program `kuifje` does with the same words, over files that the caller has in memory. It reads no file, writes to
 * no stream, keeps nothing between two calls and starts nothing. It is for Linux on x86-64, of any age. docs/LIBRARY.md says what is proved of
 * it, and what a caller has to keep to; Debian's package libkuifje-dev has the pages that are named here, below /usr/share/doc/libkuifje-dev.
 *
 * From C and C++ kuifje_ask of kuifje_ask.h is shorter: it takes strings, allocates the answer, and calls this one.
 *
 * Link with -lkuifje; `pkg-config --cflags --libs kuifje` has the flags. */
#ifndef KUIFJE_H
#define KUIFJE_H

#include <stddef.h>
#include <stdint.h>

#ifdef __cplusplus
extern "C" {
#endif

/* The version that this header belongs to, as kuifje_version gives it. */
#define KUIFJE_VERSION 1000

/* How a call ends: the program's statuses, and a last one for the library alone. docs/COMMANDS.md says when each comes, and in which order. */
enum kuifje_status {
    KUIFJE_ANSWERED = 0,        /* there is an answer; of refine and covers it is a yes, of check `accepted` */
    KUIFJE_NO = 1,              /* there is an answer: of refine and covers it is a no, of check `rejected` */
    KUIFJE_USAGE = 2,           /* there is no such command, or it takes other files, numbers or options */
    KUIFJE_READ_FAILED = 3,     /* a file that the words name isn't among the files */
    KUIFJE_WRITE_FAILED = 4,    /* a write failed: of the program alone, since the library writes nothing */
    KUIFJE_NO_PROGRAM = 5,      /* a text is no program */
    KUIFJE_FAULT = 6,           /* a program meets a fault */
    KUIFJE_TOO_WIDE = 7,        /* a number is too wide: it passes 2^127 - 1, or 2^62 in a tableau */
    KUIFJE_TOO_LARGE = 8,       /* there are too many stores, cells or pivots */
    KUIFJE_ILL_FORMED = 9,      /* the file of a gain table or of a certificate breaks a rule */
    KUIFJE_WRONG_TARGET = 10,   /* the command isn't about such a target, or not about two programs with such targets */
    KUIFJE_TOO_LONG = 11,       /* a file has more than 1,048,576 bytes */
    KUIFJE_WANT_OF_MEMORY = 12, /* memory was refused */
    KUIFJE_FEW_STATEMENTS = 13, /* quiet: a program has fewer statements than the words say */
    KUIFJE_BADLY_CALLED = 64    /* a span isn't within the bytes, or a word or a name isn't UTF-8 */
};

/* The bytes from `from` up to but not with `end`, counted from 0. Spans may overlap; where both are the same there are none. */
struct kuifje_span {
    size_t from;
    size_t end;
};

/* Where a file's name stands, and where its contents. */
struct kuifje_file {
    struct kuifje_span name;
    struct kuifje_span contents;
};

/* How many bytes the whole answer has. */
struct kuifje_lengths {
    size_t out;
    size_t err;
};

/* Runs the program, and gives the status with which it would end.
 *
 * bytes    holds every word, name and file; words and files say where in it.
 * words    The first is the program's name, which isn't looked at, the second the command: "kuifje", "hyper", "lock.kf".
 * files    The files that the words may name. Of two with one name the first counts. A name stands for nothing but itself: "a.kf" and
 *          "./a.kf" are two names.
 * out, err get what the program would write to standard output and to standard error: as much of the front as there is room for, with no
 *          byte of 0 after it. What stands after that in a buffer stays.
 * lengths  gets how many bytes that is in all, as snprintf does. Where one is greater than its buffer, call again with a larger one: this
 *          runs the program again. With the statuses 12 and 64 both are 0, and the buffers stay.
 *
 * The caller owns all of this memory and may free it after the call. Each pointer has to point to as many elements as the length after it
 * says, aligned as C has it. Where that length is 0 it may point to anything but null; NULL is never right. out, err and lengths may overlap
 * nothing else, and while the call runs nobody may write to any of it, nor read out, err or lengths.
 *
 * Threads: calls at the same time need no lock. Not from a signal handler, and not from the child of a fork of a process with threads.
 * Memory: comes from malloc, realloc and free, and all of it is freed before the call returns.
 * Stack: the deepest texts take less than 896 KiB in the trials; no bound is proved. A process has 8 MiB on most systems. A thread that was made
 *        with less than 1 MiB has to be given more (pthread_attr_setstacksize).
 * Time: a call can neither be stopped nor bounded. Where that matters, make it in a process of its own, which can. */
uint8_t kuifje_run(const uint8_t *bytes, size_t bytes_length,
                   const struct kuifje_span *words, size_t words_length,
                   const struct kuifje_file *files, size_t files_length,
                   uint8_t *out, size_t out_length,
                   uint8_t *err, size_t err_length,
                   struct kuifje_lengths *lengths);

/* The library's version as one number: 1,000,000 for each major version, 1,000 for each minor one and 1 for each patch. */
uint32_t kuifje_version(void);

#ifdef __cplusplus
}
#endif

#endif
