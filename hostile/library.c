/* The program by the library: `kuifje WORDS` with the files that stand among the words. tools/gate/hostile/library.py links it with libkuifje.a.
 *
 * In place of the answer the variable TRIAL asks for a trial of the call, which ends with 1 where it isn't passed:
 *   lengths     buffers of every length from 0 to the answer's get its front and keep the rest
 *   calls N     N calls give the one answer, and the last nine tenths of them take no more memory
 *   refusals    each allocation refused in turn gives status 12 and nothing, or the answer; nothing is kept
 *   threads N   eight threads with N calls each have the one answer
 *   stack N     a thread with N KiB of stack has it
 *   memory      the words are a program and its words: prints below its answer the kilobytes that it held at most. (A process's peak
 *               has that of the one which starts it; this one is small) */
#include "../include/kuifje.h"
#include "allocations.h"
#include <pthread.h>
#include <stdio.h>
#include <stdlib.h>
#include <string.h>
#include <sys/resource.h>
#include <sys/wait.h>
#include <time.h>
#include <unistd.h>

enum { MOST_FILE = (1 << 20) + 1, MOST_WORDS = 64, MOST_OUT = 1 << 26, MOST_ERR = 1 << 16, THREADS = 8, REST = 0xa5 };

static uint8_t *bytes, *out, *err;
static size_t end, words_count, files_count;
static struct kuifje_span words[MOST_WORDS];
static struct kuifje_file files[MOST_WORDS];
static struct kuifje_lengths whole;
static int status;

/* ---- the question */

static struct kuifje_span put(const char *text)
{
    size_t from = end;
    memcpy(bytes + end, text, strlen(text));
    end += strlen(text);
    return (struct kuifje_span){from, end};
}

static void put_file(const char *name)
{
    FILE *file = fopen(name, "rb");
    if (file == NULL)
        return;
    struct kuifje_span spans = put(name);
    size_t count = fread(bytes + end, 1, MOST_FILE, file);
    if (!ferror(file))
        files[files_count++] = (struct kuifje_file){spans, {end, end + count}};
    end += count;
    fclose(file);
}

static void ask(int count, char **arguments)
{
    bytes = malloc((size_t)MOST_FILE * (size_t)(count + 1) + (1 << 22));
    out = malloc(MOST_OUT);
    err = malloc(MOST_ERR);
    if (bytes == NULL || out == NULL || err == NULL || count > MOST_WORDS)
        exit(EXIT_FAILURE);
    for (int i = 0; i < count; i++) {
        words[words_count++] = put(arguments[i]);
        if (i > 1)
            put_file(strncmp(arguments[i], "table:", 6) == 0 ? arguments[i] + 6 : arguments[i]);
    }
}

static int call(uint8_t *to, size_t to_length, uint8_t *err_to, size_t err_length, struct kuifje_lengths *lengths)
{
    return kuifje_run(bytes, end, words, words_count, files, files_count, to, to_length, err_to, err_length, lengths);
}

static void must(int holds, const char *what)
{
    if (!holds) {
        fprintf(stderr, "%s\n", what);
        exit(EXIT_FAILURE);
    }
}

static int same_lengths(struct kuifje_lengths a, struct kuifje_lengths b)
{
    return a.out == b.out && a.err == b.err;
}

/* ---- trials */

static void try_front(size_t length)
{
    struct kuifje_lengths lengths;
    size_t front = length < whole.out ? length : whole.out;
    uint8_t *buffer = malloc(length + 16);
    must(buffer != NULL, "no memory for a buffer");
    memset(buffer, REST, length + 16);
    must(call(buffer, length, err, MOST_ERR, &lengths) == status, "another status with another buffer");
    must(same_lengths(lengths, whole), "another length with another buffer");
    must(memcmp(buffer, out, front) == 0, "a buffer doesn't hold the answer's front");
    for (size_t i = front; i < length + 16; i++)
        must(buffer[i] == REST, "a byte after the answer's front was changed");
    free(buffer);
}

static void try_lengths(void)
{
    for (size_t length = 0; length <= whole.out + 1; length++)
        try_front(length);
    printf("%zu buffers\n", whole.out + 2);
}

static void one_more(uint8_t *to, uint8_t *err_to)
{
    struct kuifje_lengths lengths;
    must(call(to, whole.out, err_to, whole.err, &lengths) == status && same_lengths(lengths, whole), "another answer");
    must(memcmp(to, out, whole.out) == 0 && memcmp(err_to, err, whole.err) == 0, "other bytes");
}

/* Pages of the process's own; those of its file come when code first runs. */
static long resident_pages(void)
{
    long size, pages = 0, of_files = 0;
    FILE *file = fopen("/proc/self/statm", "r");
    must(file != NULL && fscanf(file, "%ld %ld %ld", &size, &pages, &of_files) == 3, "no /proc/self/statm");
    fclose(file);
    return pages - of_files;
}

static void try_calls(long count)
{
    uint8_t *to = malloc(whole.out + 1), *err_to = malloc(whole.err + 1);
    must(to != NULL && err_to != NULL, "no memory for a buffer");
    struct timespec start, stop;
    long pages = 0;
    for (long i = 0; i < count; i++) {
        if (i == count / 10) {
            resident_pages(); /* what it takes itself is there before it counts */
            pages = resident_pages();
            clock_gettime(CLOCK_PROCESS_CPUTIME_ID, &start);
        }
        one_more(to, err_to);
    }
    clock_gettime(CLOCK_PROCESS_CPUTIME_ID, &stop);
    must(resident_pages() <= pages, "calls take more and more memory");
    double seconds = (double)(stop.tv_sec - start.tv_sec) + (double)(stop.tv_nsec - start.tv_nsec) / 1e9;
    printf("%ld calls of %.4f ms, %ld pages\n", count, seconds * 1e3 / (double)(count - count / 10), pages);
}

static void try_refusals(void)
{
    uint8_t *to = malloc(whole.out + 1), *err_to = malloc(whole.err + 1);
    must(to != NULL && err_to != NULL, "no memory for a buffer");
    long wants = 0;
    for (refused = 1;; refused++) {
        struct kuifje_lengths lengths;
        asked = 0;
        counts = 1;
        int seen = call(to, whole.out, err_to, whole.err, &lengths);
        counts = 0;
        must(kept == 0, "an allocation is kept");
        if (seen == KUIFJE_WANT_OF_MEMORY) {
            must(lengths.out == 0 && lengths.err == 0, "status 12 has lengths");
            wants++;
        } else {
            must(seen == status && same_lengths(lengths, whole), "another answer where memory is refused");
            must(memcmp(to, out, whole.out) == 0 && memcmp(err_to, err, whole.err) == 0, "other bytes where memory is refused");
        }
        if (asked < refused)
            break;
    }
    must(wants > 0, "no allocation was refused");
    printf("%ld allocations refused, %ld of them wanted\n", refused - 1, wants);
}

static void *thread(void *rounds)
{
    uint8_t *to = malloc(whole.out + 1), *err_to = malloc(whole.err + 1);
    must(to != NULL && err_to != NULL, "no memory for a buffer");
    for (long i = 0; i < *(long *)rounds; i++)
        one_more(to, err_to);
    free(to);
    free(err_to);
    return NULL;
}

static void try_threads(long rounds)
{
    pthread_t threads[THREADS];
    for (int i = 0; i < THREADS; i++)
        must(pthread_create(&threads[i], NULL, thread, &rounds) == 0, "no thread");
    for (int i = 0; i < THREADS; i++)
        pthread_join(threads[i], NULL);
    printf("%d threads with %ld calls each\n", THREADS, rounds);
}

static void try_stack(long kibibytes)
{
    pthread_t small;
    pthread_attr_t attributes;
    long rounds = 1;
    must(pthread_attr_init(&attributes) == 0 && pthread_attr_setstacksize(&attributes, (size_t)kibibytes << 10) == 0, "no such stack");
    must(pthread_create(&small, &attributes, thread, &rounds) == 0, "no thread");
    pthread_join(small, NULL);
    printf("%ld KiB\n", kibibytes);
}

static int measure(char **arguments)
{
    struct rusage used;
    int ended = 0;
    pid_t child = fork();
    if (child == 0) {
        unsetenv("TRIAL");
        execv(arguments[0], arguments);
        _exit(127);
    }
    must(child > 0 && wait4(child, &ended, 0, &used) == child && WIFEXITED(ended), "no end");
    printf("%ld\n", used.ru_maxrss);
    return WEXITSTATUS(ended);
}

static int answer(void)
{
    if (fwrite(out, 1, whole.out, stdout) != whole.out || fflush(stdout) != 0) {
        fputs("kuifje: write failed\n", stderr);
        return 4;
    }
    fwrite(err, 1, whole.err, stderr);
    if (status == KUIFJE_WANT_OF_MEMORY)
        fputs("kuifje: want of memory\n", stderr);
    return status;
}

int main(int count, char **arguments)
{
    const char *trial = getenv("TRIAL"), *space = trial == NULL ? NULL : strchr(trial, ' ');
    long number = space == NULL ? 0 : atol(space + 1);
    if (trial != NULL && strcmp(trial, "memory") == 0)
        return measure(arguments + 1);
    ask(count, arguments);
    must(kuifje_version() == KUIFJE_VERSION, "another version than the header's");
    status = call(out, MOST_OUT, err, MOST_ERR, &whole);
    if (trial == NULL)
        return answer();
    must(whole.out <= MOST_OUT && whole.err <= MOST_ERR, "too long an answer");
    if (strcmp(trial, "lengths") == 0)
        try_lengths();
    else if (strncmp(trial, "calls ", 6) == 0)
        try_calls(number);
    else if (strcmp(trial, "refusals") == 0)
        try_refusals();
    else if (strncmp(trial, "threads ", 8) == 0)
        try_threads(number);
    else if (strncmp(trial, "stack ", 6) == 0)
        try_stack(number);
    else
        must(0, "no such trial");
    return EXIT_SUCCESS;
}
