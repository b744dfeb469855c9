/* A question in one call: words and names are strings that end in 0, and the answer is allocated.
 *
 *     const char *words[] = {"kuifje", "hyper", "lock.kf"};
 *     struct kuifje_named_file files[] = {{"lock.kf", text, strlen(text)}};
 *     struct kuifje_answer answer;
 *     if (kuifje_ask(3, words, files, 1, &answer) == KUIFJE_ANSWERED)
 *         fputs(answer.out, stdout);
 *     kuifje_free(&answer);
 *
 * kuifje_run (kuifje.h) is proved, and what stands here is not: it copies words and files to where kuifje_run takes them, and gives buffers to it. It
 * is compiled with its caller, as C99 or later or as C++11 or later; the library has none of it. What kuifje.h says of threads, stack and time
 * holds here, too. */
#ifndef KUIFJE_ASK_H
#define KUIFJE_ASK_H

#include "kuifje.h"
#include <stdlib.h>
#include <string.h>

/* A file that the words may name: its name, which ends in 0, and its bytes, of which any may be 0. Where length is 0, bytes may be null. */
struct kuifje_named_file {
    const char *name;
    const void *bytes;
    size_t length;
};

/* What the program would print, and the status with which it would end. out and err are never null, and have a 0 after their last byte, which their
 * lengths don't count. They are the answer's own, and stay until kuifje_free. */
struct kuifje_answer {
    int status; /* one of enum kuifje_status */
    const char *out;
    size_t out_length;
    const char *err;
    size_t err_length;
    void *memory; /* for kuifje_free alone: what was allocated for out and err, or null */
};

/* The functions whose names begin with kuifje_ask_ are for kuifje_ask alone. This one gives SIZE_MAX in place of a greater sum. */
static inline size_t kuifje_ask_sum(size_t a, size_t b)
{
    return a < SIZE_MAX - b ? a + b : SIZE_MAX;
}

/* Memory of this size, or null. */
static inline void *kuifje_ask_memory(size_t size)
{
    return size <= PTRDIFF_MAX ? malloc(size) : NULL;
}

/* Copies bytes to the end of those that are held, and gives where they stand. */
static inline struct kuifje_span kuifje_ask_put(uint8_t *held, size_t *end, const void *bytes, size_t length)
{
    struct kuifje_span span = {*end, *end + length};
    if (length > 0)
        memcpy(held + span.from, bytes, length);
    *end = span.end;
    return span;
}

/* The answer of status 12 or 64, which kuifje_run leaves without a line. */
static inline int kuifje_ask_none(int status, struct kuifje_answer *answer)
{
    answer->status = status;
    answer->out = "";
    answer->out_length = 0;
    answer->err = status == KUIFJE_WANT_OF_MEMORY ? "kuifje: want of memory\n" : "kuifje: a word or a name is null or isn't UTF-8\n";
    answer->err_length = strlen(answer->err);
    answer->memory = NULL;
    return status;
}

/* Asks with room for most answers, and again with as much as the answer takes where that is more. */
static inline int kuifje_ask_spans(const uint8_t *bytes, size_t bytes_length, const struct kuifje_span *words, size_t words_length,
                                                  const struct kuifje_file *files, size_t files_length, struct kuifje_answer *answer)
{
    struct kuifje_lengths room, whole = {65536, 4096};
    int status;
    char *out, *err, *shorter;
    for (;;) {
        room = whole;
        out = (char *)kuifje_ask_memory(kuifje_ask_sum(kuifje_ask_sum(room.out, room.err), 2));
        if (out == NULL)
            return kuifje_ask_none(KUIFJE_WANT_OF_MEMORY, answer);
        err = out + room.out + 1;
        status = kuifje_run(bytes, bytes_length, words, words_length, files, files_length,
                            (uint8_t *)out, room.out, (uint8_t *)err, room.err, &whole);
        if (whole.out <= room.out && whole.err <= room.err)
            break;
        free(out);
    }
    if (status == KUIFJE_WANT_OF_MEMORY || status == KUIFJE_BADLY_CALLED) {
        free(out);
        return kuifje_ask_none(status, answer);
    }
    out[whole.out] = 0;
    memmove(out + whole.out + 1, err, whole.err);
    out[whole.out + 1 + whole.err] = 0;
    shorter = (char *)realloc(out, whole.out + whole.err + 2);
    answer->memory = shorter != NULL ? shorter : out;
    answer->status = status;
    answer->out = (char *)answer->memory;
    answer->out_length = whole.out;
    answer->err = answer->out + whole.out + 1;
    answer->err_length = whole.err;
    return status;
}

/* Runs the program with these words over these files, and gives the status with which it would end, which is the answer's, too.
 *
 * argc, argv  the words, as main has them: the first is the program's name, which isn't looked at, the second the command. argv may be null where
 *             argc is 0. What main has is handed on as (const char *const *)argv.
 * files       those that the words may name. Of two with one name the first counts. May be null where files_length is 0.
 * answer      gets the answer, whatever stood there before, so that an earlier one has to be freed first. With KUIFJE_WANT_OF_MEMORY and
 *             KUIFJE_BADLY_CALLED out is empty, and err one line that says so.
 *
 * KUIFJE_BADLY_CALLED: a word or a name is null or isn't UTF-8, or an array or a file's bytes are null whose length isn't 0. Words, files and
 * their arrays are the caller's, and may be freed after the call. Most questions are run once, and twice where out has more than 65,536 bytes or
 * err more than 4,096. */
static inline int kuifje_ask(size_t argc, const char *const *argv, const struct kuifje_named_file *files, size_t files_length,
                                            struct kuifje_answer *answer)
{
    size_t size = 1, end = 0, i;
    struct kuifje_span *words;
    struct kuifje_file *named;
    uint8_t *held;
    int status;
    if ((argc > 0 && argv == NULL) || (files_length > 0 && files == NULL))
        return kuifje_ask_none(KUIFJE_BADLY_CALLED, answer);
    for (i = 0; i < argc; i++) {
        if (argv[i] == NULL)
            return kuifje_ask_none(KUIFJE_BADLY_CALLED, answer);
        size = kuifje_ask_sum(size, sizeof *words + strlen(argv[i]));
    }
    for (i = 0; i < files_length; i++) {
        if (files[i].name == NULL || (files[i].bytes == NULL && files[i].length > 0))
            return kuifje_ask_none(KUIFJE_BADLY_CALLED, answer);
        size = kuifje_ask_sum(size, kuifje_ask_sum(sizeof *named + strlen(files[i].name), files[i].length));
    }
    words = (struct kuifje_span *)kuifje_ask_memory(size); /* the words' spans, then those of files, then all bytes */
    if (words == NULL)
        return kuifje_ask_none(KUIFJE_WANT_OF_MEMORY, answer);
    named = (struct kuifje_file *)(void *)(words + argc);
    held = (uint8_t *)(named + files_length);
    for (i = 0; i < argc; i++)
        words[i] = kuifje_ask_put(held, &end, argv[i], strlen(argv[i]));
    for (i = 0; i < files_length; i++) {
        named[i].name = kuifje_ask_put(held, &end, files[i].name, strlen(files[i].name));
        named[i].contents = kuifje_ask_put(held, &end, files[i].bytes, files[i].length);
    }
    status = kuifje_ask_spans(held, end, words, argc, named, files_length, answer);
    free(words);
    return status;
}

/* Frees an answer, of which out and err are empty afterwards. A second time, or of an answer of zeros, it does nothing. */
static inline void kuifje_free(struct kuifje_answer *answer)
{
    free(answer->memory);
    answer->out = answer->err = "";
    answer->out_length = answer->err_length = 0;
    answer->memory = NULL;
}

#endif
