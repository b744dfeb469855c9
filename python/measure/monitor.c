/* Which runs are made, what memory each finds, and the traces that they leave: whole, and compared word by word.

   All of its own memory is shared with nobody but mapped as shared, so that no snapshot of the measured process restores it. */
#define _GNU_SOURCE
#include "monitor.h"
#include <fcntl.h>
#include <stdio.h>
#include <stdlib.h>
#include <string.h>
#include <sys/mman.h>
#include <time.h>
#include <unistd.h>
#include "kuifje_measure.h"

#define MOST_SITES ((size_t)1 << 20)
#define MOST_TRACES ((size_t)1 << 22)
#define MOST_EVENTS ((size_t)1 << 24) /* of a run */
#define MOST_ACCESSES 512             /* of an instruction */
#define POISONED ((size_t)256 << 10)  /* bytes of the stack that hold a pattern before each run */
#define LARGEST_PART ((uint64_t)256 << 20)
#define PAGE 4096
#define LONGEST_OF_STEPS 60 /* seconds after which single steps end within a run */

enum phase { BEGINNING, MEETING, WARMING, MAPPING, FIRST, AGAIN, DIAGNOSING };

struct access { uint64_t address; uint32_t size; enum kf_kind kind; };
struct table { uint32_t *slots; size_t size; };
struct file { char *at; size_t used, limit; int number; const char *name; };

struct monitor {
    char folder[3000], tracer[32], text[512];
    const struct kf_machine *machine;
    uint64_t base, step_bound, secret_count, public_count, noise_count, run_count;
    int is_snapshot, is_sampled, is_always_on; /* some runs may be left out; events come from the tracer's breakpoints alone */
    double seconds, begun, ended;
    struct kf_control *control;
    struct kf_variable *variables;
    uint64_t variable_count;
    /* the run that is being made */
    enum phase phase;
    uint64_t run, position, stride, steps, all_steps, all_events, runs_done, longest;
    uint32_t *sites_of_run;
    uint64_t *values_of_run;
    size_t site_count_of_run, value_count_of_run;
    uint64_t pending_pc;
    size_t pending_count;
    struct access pending[MOST_ACCESSES];
    /* what was found */
    struct kf_site *sites;
    size_t site_count;
    struct table site_table, skeleton_table, trace_table;
    struct file skeletons, values;
    uint64_t *skeleton_starts, *skeleton_hashes, *trace_hashes;
    size_t skeleton_count, trace_count;
    struct kf_trace *traces;
    uint32_t *classes; /* for each run the number of its trace, and ~0 where it wasn't made */
    /* memory */
    char **copies, **after_first;
    int depends, reads_secret, divides, copied_first;
    uint64_t differing, odd_run;
    uint32_t odd[4];
    int diagnosis;
};

static struct monitor *m;
int kf_on;
void (*kf_ready)(void);

static void *shared(size_t size)
{
    void *at = mmap(0, size, PROT_READ | PROT_WRITE, MAP_SHARED | MAP_ANONYMOUS | MAP_NORESERVE, -1, 0);
    if (at == MAP_FAILED) {
        perror("kuifje-lab measure");
        _exit(5);
    }
    return at;
}

static char *in_process(uint64_t address) { return (char *)(uintptr_t)(address + m->base); }

static double now(void)
{
    struct timespec time;
    clock_gettime(CLOCK_MONOTONIC, &time);
    return (double)time.tv_sec + (double)time.tv_nsec * 1e-9;
}

/* ---- files */

static void open_file(struct file *file, const char *name, size_t limit)
{
    char path[4096];
    snprintf(path, sizeof path, "%s/%s", m->folder, name);
    file->number = open(path, O_RDWR | O_CREAT | O_TRUNC | O_CLOEXEC, 0600);
    file->limit = limit;
    file->name = name;
    if (file->number < 0 || ftruncate(file->number, (off_t)limit) != 0) {
        perror(path);
        _exit(5);
    }
    file->at = mmap(0, limit, PROT_READ | PROT_WRITE, MAP_SHARED | MAP_NORESERVE, file->number, 0);
    if (file->at == MAP_FAILED) {
        perror(path);
        _exit(5);
    }
}

static void add(struct file *file, const void *at, size_t size)
{
    if (file->used + size > file->limit) {
        snprintf(m->text, sizeof m->text, "the distinct traces take more than %zu MB", file->limit >> 20);
        kf_refuse("Large", 0, m->text);
    }
    memcpy(file->at + file->used, at, size);
    file->used += size;
}

static void close_file(struct file *file)
{
    if (file->at) {
        munmap(file->at, file->limit);
        if (ftruncate(file->number, (off_t)file->used) != 0)
            perror(file->name);
        close(file->number);
    }
}

static void save(const char *name, const void *at, size_t size)
{
    char path[4096];
    snprintf(path, sizeof path, "%s/%s", m->folder, name);
    FILE *file = fopen(path, "wb");
    if (!file || fwrite(at, 1, size, file) != size || fclose(file) != 0) {
        perror(path);
        _exit(5);
    }
}

static void put_text(FILE *file, const char *text)
{
    fputc('"', file);
    for (; *text; text++)
        if (*text == '"' || *text == '\\')
            fprintf(file, "\\%c", *text);
        else if ((unsigned char)*text >= ' ')
            fputc(*text, file);
    fputc('"', file);
}

static void save_variables(FILE *file)
{
    for (uint64_t i = 0; i < m->variable_count; i++) {
        struct kf_variable *v = &m->variables[i];
        fprintf(file, "%s{\"name\": ", i ? ", " : "");
        put_text(file, in_process((uint64_t)v->name));
        fprintf(file, ", \"size\": %lu, \"count\": %lu, \"low\": %ld, \"high\": %ld, \"role\": %lu, \"weights\": ", v->size, v->count, v->low, v->high, v->role);
        if (v->weights) {
            const uint64_t *weights = (const uint64_t *)in_process((uint64_t)v->weights);
            for (int64_t j = 0; j <= v->high - v->low; j++)
                fprintf(file, "%s%lu", j ? ", " : "[", weights[j]);
            fputs("]}", file);
        } else
            fputs("null}", file);
    }
}

/* Everything but the two files that grow. */
static void save_all(const char *refusal, uint64_t pc, const char *why)
{
    char path[4096];
    snprintf(path, sizeof path, "%s/report.json", m->folder);
    FILE *file = fopen(path, "w");
    if (!file)
        _exit(5);
    fprintf(file, "{\"tracer\": \"%s\", \"machine\": \"%s\", \"public\": %lu, \"secret\": %lu, \"noise\": %lu, \"runs\": %lu, \"instructions\": %lu, ",
            m->tracer, m->machine->name, m->public_count, m->secret_count, m->noise_count, m->runs_done, m->all_steps);
    fprintf(file, "\"longest\": %lu, \"events\": %lu, \"divides\": %d, \"seconds\": %.3f, \"go\": %lu, \"back\": %lu, \"snapshot\": %d, \"variables\": [",
            m->longest, m->all_events, m->divides, now() - m->begun, m->control ? m->control->go : 0, m->control ? m->control->back : 0, m->is_snapshot);
    save_variables(file);
    fprintf(file, "], \"refusal\": ");
    if (refusal) {
        fputs("{\"word\": ", file);
        put_text(file, refusal);
        fprintf(file, ", \"pc\": %lu, \"run\": %lu, \"differing\": %lu, \"traces\": [%u, %u], \"why\": ", pc, m->run, m->differing, m->odd[0], m->odd[1]);
        put_text(file, why);
        fputs("}}\n", file);
    } else
        fputs("null}\n", file);
    if (fclose(file) != 0)
        _exit(5);
    m->skeleton_starts[m->skeleton_count] = m->skeletons.used / 4;
    save("sites", m->sites, m->site_count * sizeof *m->sites);
    save("skeleton-starts", m->skeleton_starts, (m->skeleton_count + 1) * 8);
    save("traces", m->traces, m->trace_count * sizeof *m->traces);
    save("classes", m->classes, m->run_count * sizeof *m->classes);
    if (m->control)
        save("maps", in_process(m->control->maps), m->control->maps_size);
    close_file(&m->skeletons);
    close_file(&m->values);
}

void kf_refuse(const char *word, uint64_t pc, const char *why)
{
    kf_on = 0;
    save_all(word, pc, why);
    _exit(3);
}

void kf_forbid(const char *word, uint64_t pc, const char *why)
{
    if (m->phase != WARMING)
        kf_refuse(word, pc, why);
}

/* ---- tables: a hash finds a place, and what stands there is compared whole */

static uint64_t hash_words(uint64_t hash, const uint32_t *words, size_t count)
{
    for (size_t i = 0; i < count; i++) {
        hash = (hash ^ words[i]) * 0xff51afd7ed558ccdull;
        hash ^= hash >> 32;
    }
    return hash;
}

static uint32_t site_of(uint16_t kind, uint16_t way, uint32_t size, uint64_t pc, uint64_t to)
{
    struct kf_site site = {pc, to, size, kind, way};
    size_t mask = m->site_table.size - 1;
    uint64_t hash = hash_words(kind, (const uint32_t *)&site, sizeof site / 4);
    for (size_t at = hash & mask;; at = (at + 1) & mask) {
        uint32_t number = m->site_table.slots[at];
        if (number && !memcmp(&m->sites[number - 1], &site, sizeof site))
            return number - 1;
        if (!number) {
            if (m->site_count == MOST_SITES)
                kf_refuse("Large", pc, "there are more than a million different sites of events");
            m->sites[m->site_count++] = site;
            m->site_table.slots[at] = (uint32_t)m->site_count;
            return (uint32_t)m->site_count - 1;
        }
    }
}

static uint32_t skeleton_of_run(void)
{
    size_t count = m->site_count_of_run, mask = m->skeleton_table.size - 1;
    uint64_t hash = hash_words(count, m->sites_of_run, count);
    for (size_t at = hash & mask;; at = (at + 1) & mask) {
        uint32_t number = m->skeleton_table.slots[at];
        if (!number) {
            if (m->skeleton_count == MOST_TRACES - 1)
                kf_refuse("Large", 0, "there are more than four million distinct traces");
            m->skeleton_hashes[m->skeleton_count] = hash;
            m->skeleton_starts[m->skeleton_count] = m->skeletons.used / 4;
            add(&m->skeletons, m->sites_of_run, count * 4);
            m->skeleton_starts[++m->skeleton_count] = m->skeletons.used / 4;
            m->skeleton_table.slots[at] = (uint32_t)m->skeleton_count;
            return (uint32_t)m->skeleton_count - 1;
        }
        uint64_t start = m->skeleton_starts[number - 1];
        if (m->skeleton_hashes[number - 1] == hash && m->skeleton_starts[number] - start == count &&
            !memcmp(m->skeletons.at + start * 4, m->sites_of_run, count * 4))
            return number - 1;
    }
}

static int is_trace(uint32_t number, uint32_t skeleton)
{
    struct kf_trace *trace = &m->traces[number];
    return trace->skeleton == skeleton && trace->count == m->value_count_of_run &&
           !memcmp(m->values.at + trace->values * 8, m->values_of_run, trace->count * 8);
}

static uint32_t trace_of_run(void)
{
    uint32_t skeleton = skeleton_of_run();
    size_t mask = m->trace_table.size - 1;
    uint64_t hash = hash_words(skeleton, (const uint32_t *)m->values_of_run, 2 * m->value_count_of_run);
    for (size_t at = hash & mask;; at = (at + 1) & mask) {
        uint32_t number = m->trace_table.slots[at];
        if (!number) {
            if (m->trace_count == MOST_TRACES - 1)
                kf_refuse("Large", 0, "there are more than four million distinct traces");
            m->trace_hashes[m->trace_count] = hash;
            m->traces[m->trace_count] = (struct kf_trace){skeleton, (uint32_t)m->value_count_of_run, m->values.used / 8};
            add(&m->values, m->values_of_run, m->value_count_of_run * 8);
            m->trace_table.slots[at] = (uint32_t)++m->trace_count;
            return (uint32_t)m->trace_count - 1;
        }
        if (m->trace_hashes[number - 1] == hash && is_trace(number - 1, skeleton))
            return number - 1;
    }
}

/* ---- events */

static void event(uint32_t site)
{
    if (m->site_count_of_run == MOST_EVENTS)
        kf_refuse("Large", m->sites[site].pc, "a run has more than 16 million events");
    m->sites_of_run[m->site_count_of_run++] = site;
}

static void value(uint64_t word) { m->values_of_run[m->value_count_of_run++] = word; }

static int is_secret(uint64_t low, uint64_t high)
{
    for (uint64_t i = 0; i < m->variable_count; i++) {
        struct kf_variable *v = &m->variables[i];
        if (v->role == KF_SECRET && low < (uint64_t)v->at + v->size * v->count && (uint64_t)v->at < high)
            return 1;
    }
    return 0;
}

static int before(const struct access *a, const struct access *b)
{
    return a->kind != b->kind ? a->kind < b->kind : a->address < b->address;
}

/* The accesses of one instruction, in an order that doesn't depend on the tracer, and those that touch one another as one. */
static void settle(void)
{
    size_t count = m->pending_count;
    struct access *a = m->pending;
    m->pending_count = 0;
    for (size_t i = 1; i < count; i++)
        for (size_t j = i; j > 0 && before(&a[j], &a[j - 1]); j--) {
            struct access swapped = a[j];
            a[j] = a[j - 1], a[j - 1] = swapped;
        }
    for (size_t i = 0; i < count;) {
        struct access whole = a[i];
        for (i++; i < count && a[i].kind == whole.kind && a[i].address <= whole.address + whole.size; i++)
            if (a[i].address + a[i].size > whole.address + whole.size)
                whole.size = (uint32_t)(a[i].address + a[i].size - whole.address);
        event(site_of((uint16_t)whole.kind, 0, whole.size, m->pending_pc, 0));
        value(whole.address);
        if (!m->reads_secret && whole.kind == KF_LOAD)
            m->reads_secret = is_secret(whole.address, whole.address + whole.size);
    }
}

static void done(void);

void kf_count(int64_t instructions, uint64_t pc)
{
    m->steps += (uint64_t)instructions;
    if (m->is_sampled && m->seconds > 0 && m->steps % 1024 == 0 && now() - m->begun > LONGEST_OF_STEPS + m->seconds) {
        done();
        _exit(0);
    }
    if (m->steps > m->step_bound) {
        snprintf(m->text, sizeof m->text, "a run doesn't end within %lu instructions", m->step_bound);
        kf_refuse("Endless", pc, m->text);
    }
}

void kf_transfer(uint64_t from, uint32_t length, enum kf_way way, uint64_t to)
{
    settle();
    event(site_of(KF_TRANSFER, (uint16_t)way, length, from, to));
}

void kf_memory(enum kf_kind kind, uint32_t size, uint64_t pc, uint64_t address)
{
    if (pc != m->pending_pc || m->pending_count == MOST_ACCESSES)
        settle();
    m->pending_pc = pc;
    m->pending[m->pending_count++] = (struct access){address, size, kind};
}

void kf_plain(enum kf_kind kind, uint16_t way, uint64_t pc, uint64_t word)
{
    settle();
    m->divides |= kind == KF_DIVISION;
    event(site_of((uint16_t)kind, way, 0, pc, 0));
    if (kind != KF_DIVISION)
        value(word);
}

void kf_observed(uint64_t word, uint64_t pc)
{
    kf_plain(KF_SEEN, 0, pc, word);
}

void kf_observed_bytes(uint64_t at, uint64_t length, uint64_t pc)
{
    kf_plain(KF_SEEN, 1, pc, length);
    for (uint64_t i = 0; i < length; i += 8) {
        uint64_t word = 0;
        memcpy(&word, in_process(at + i), length - i < 8 ? length - i : 8);
        kf_plain(KF_SEEN, 2, pc, word);
    }
}

/* The numbers of system calls on x86-64 and on aarch64, which of their words is a size (0 for none), and the word with which they are refused. The first
   run of all may draw random bytes and read the clock, as libraries do that set themselves up. */
struct system_call { int number[2], size; const char *refused, *why; };
#define THREADS "Threads", "another thread or process is started"
#define ENDED "Ended", "the process is ended"
#define WAITS "Waits", "a run waits for something that isn't declared"
#define CLOCK "Clock", "the clock is read"
static const struct system_call SYSTEM[] = {
    {{0, 63}, 3, 0, 0},    {{1, 64}, 3, 0, 0},   {{17, 67}, 3, 0, 0},   {{18, 68}, 3, 0, 0},   {{44, 206}, 3, 0, 0},
    {{45, 207}, 3, 0, 0},  {{9, 222}, 2, 0, 0},  {{11, 215}, 2, 0, 0},  {{228, 113}, 0, CLOCK}, {{96, 169}, 0, CLOCK},
    {{201, -1}, 0, CLOCK}, {{318, 278}, 0, "Random", "random bytes are drawn: declare them as KUIFJE_NOISE"},
    {{56, 220}, 0, THREADS}, {{435, 435}, 0, THREADS}, {{57, -1}, 0, THREADS}, {{58, -1}, 0, THREADS},
    {{60, 93}, 0, ENDED},  {{231, 94}, 0, ENDED}, {{34, -1}, 0, WAITS}, {{35, 101}, 0, WAITS}, {{230, 115}, 0, WAITS},
    {{7, -1}, 0, WAITS},   {{271, 73}, 0, WAITS}, {{23, -1}, 0, WAITS}, {{270, 72}, 0, WAITS}, {{232, -1}, 0, WAITS},
    {{281, 22}, 0, WAITS}, {{130, 133}, 0, WAITS}, {{128, 137}, 0, WAITS},
};

static int may_set_itself_up(const char *refused) { return !strcmp(refused, "Clock") || !strcmp(refused, "Random"); }

void kf_system_call(uint64_t pc, uint64_t number, const uint64_t *words)
{
    uint64_t size = 0;
    settle();
    for (size_t i = 0; i < sizeof SYSTEM / sizeof *SYSTEM; i++)
        if ((uint64_t)SYSTEM[i].number[m->machine->is_arm] == number) {
            if (SYSTEM[i].refused && !(m->phase == WARMING && may_set_itself_up(SYSTEM[i].refused)))
                kf_refuse(SYSTEM[i].refused, pc, SYSTEM[i].why);
            size = SYSTEM[i].size ? words[SYSTEM[i].size - 1] : 0;
        }
    event(site_of(KF_CALLED, 0, 0, pc, number));
    value(size);
}

void kf_system_answer(uint64_t pc, uint64_t number, uint64_t result)
{
    settle();
    event(site_of(KF_ANSWERED, 0, 0, pc, number));
    value(result);
}

/* ---- memory */

static uint64_t part_count(void) { return m->control->part_count; }

static struct kf_part *part(uint64_t i) { return (struct kf_part *)in_process(m->control->parts) + i; }

static char **copy_of_memory(void)
{
    char **copies = shared((part_count() + 1) * sizeof *copies);
    for (uint64_t i = 0; i < part_count(); i++)
        if (part(i)->size <= LARGEST_PART) {
            copies[i] = shared(part(i)->size);
            memcpy(copies[i], in_process(part(i)->at), part(i)->size);
        }
    return copies;
}

/* Gives back the pages that differ from their copies. */
static void restore(void)
{
    for (uint64_t i = 0; i < part_count(); i++) {
        char *at = in_process(part(i)->at);
        if (!m->copies[i])
            kf_refuse("Large", 0, "a part of the memory has more than 256 MB, too many for a snapshot");
        for (uint64_t page = 0; page < part(i)->size; page += PAGE)
            if (memcmp(at + page, m->copies[i] + page, PAGE))
                memcpy(at + page, m->copies[i] + page, PAGE);
    }
}

/* Whether memory differs from its copies elsewhere than in what is assigned. */
static int differs(char **copies)
{
    for (uint64_t i = 0; i < part_count(); i++) {
        const char *at = in_process(part(i)->at);
        if (!copies[i])
            return 1;
        for (uint64_t page = 0; page < part(i)->size; page += PAGE) {
            if (!memcmp(at + page, copies[i] + page, PAGE))
                continue;
            for (uint64_t j = page; j < page + PAGE; j++) {
                uint64_t address = part(i)->at + j;
                int declared = 0;
                for (uint64_t k = 0; k < m->variable_count; k++)
                    declared |= address - (uint64_t)m->variables[k].at < m->variables[k].size * m->variables[k].count;
                if (!declared && at[j] != copies[i][j])
                    return 1;
            }
        }
    }
    return 0;
}

/* ---- runs */

static uint64_t count_of(uint64_t role)
{
    uint64_t count = 1;
    for (uint64_t i = 0; i < m->variable_count; i++)
        for (uint64_t j = 0; m->variables[i].role == role && j < m->variables[i].count; j++) {
            count *= (uint64_t)(m->variables[i].high - m->variables[i].low) + 1;
            if (count > ((uint64_t)1 << 24))
                return count;
        }
    return count;
}

/* Mixed radix: the first entry of the first variable counts most. */
static void assign(uint64_t role, uint64_t number)
{
    for (uint64_t i = m->variable_count; i-- > 0;) {
        struct kf_variable *v = &m->variables[i];
        uint64_t radix = (uint64_t)(v->high - v->low) + 1;
        if (v->role != role)
            continue;
        for (uint64_t j = v->count; j-- > 0; number /= radix) {
            int64_t word = v->low + (int64_t)(number % radix);
            memcpy(in_process((uint64_t)v->at + j * v->size), &word, v->size < 8 ? v->size : 8);
        }
    }
}

static void prepare(uint64_t run, unsigned char pattern)
{
    m->run = run;
    if (m->control->fresh_break && m->copies)
        restore();
    assign(KF_PUBLIC, run / (m->secret_count * m->noise_count));
    assign(KF_SECRET, run / m->noise_count % m->secret_count);
    assign(KF_NOISE, run % m->noise_count);
    uint64_t low = m->control->stack + m->control->stack_size - POISONED;
    memset(in_process(low), pattern, POISONED);
    m->control->poison = 0x0101010101010101ull * pattern;
    m->site_count_of_run = m->value_count_of_run = m->steps = 0;
    m->pending_count = 0;
    m->pending_pc = 0;
    kf_on = m->is_always_on;
}

static void finish(void)
{
    kf_plain(KF_RETURNED, 0, m->control->back, (uint64_t)m->control->result);
    m->all_steps += m->steps;
    m->all_events += m->site_count_of_run;
    m->longest = m->steps > m->longest ? m->steps : m->longest;
    m->runs_done++;
}

static void done(void)
{
    if (!m->reads_secret && !m->is_sampled)
        kf_refuse("Folded", m->control->go, "no run reads a secret: the compiler has folded the function away, or it takes none");
    if (!m->depends && m->trace_count < 2 && !m->is_sampled)
        kf_refuse("Nothing", m->control->go, "neither an event, nor what is returned, nor the memory that a run leaves depends on anything");
    save_all(0, 0, 0);
    m->control->stop = 1;
}

/* A run that differs when it is repeated: it is made again on memory as it was at first, twice alike and once on another pattern. */
static void diagnose(void)
{
    if (m->diagnosis > 0)
        m->odd[m->diagnosis] = trace_of_run();
    if (m->diagnosis < 3) {
        m->control->fresh_break = 1;
        m->diagnosis++;
        prepare(m->odd_run, m->diagnosis == 3 ? 0xa5 : 0);
        return;
    }
    uint32_t first = m->odd[1], same = m->odd[2], other = m->odd[3];
    const char *word = first != same ? "Clock" : first != other ? "Unwritten" : "Earlier";
    const char *why = first != same    ? "a run depends on the clock, or on something else that isn't declared"
                      : first != other ? "a run depends on memory or on registers that nobody wrote"
                                       : "a run depends on earlier runs; with --snapshot memory is as it was before each";
    uint32_t twice = first != same ? same : first != other ? other : m->odd[0];
    m->odd[0] = first != same || first != other ? first : m->classes[m->odd_run];
    m->odd[1] = twice;
    m->run = m->odd_run;
    kf_refuse(word, 0, why);
}

static void compare_again(void)
{
    uint32_t skeleton = skeleton_of_run();
    if (is_trace(m->classes[m->run], skeleton))
        return;
    if (!m->differing++) {
        m->odd_run = m->run;
        m->odd[0] = trace_of_run();
    }
}

static int out_of_time(void) { return m->seconds > 0 && now() - m->begun > m->seconds; }

static void after_first(void)
{
    m->classes[m->run] = trace_of_run();
    if (m->depends)
        return;
    if (m->trace_count > 1)
        m->depends = 1;
    else if (!m->after_first)
        m->after_first = copy_of_memory();
    else
        m->depends = differs(m->after_first);
}

static void check_variables(void)
{
    for (uint64_t i = 0; i < m->variable_count; i++) {
        struct kf_variable *v = &m->variables[i];
        int64_t half = v->size < 8 ? (int64_t)1 << (8 * v->size - 1) : INT64_MAX;
        int fits = v->size >= 8 || (v->low >= -half && v->high < half) || (v->low >= 0 && v->high / 2 < half);
        if (v->low > v->high || v->count == 0 || !fits) {
            snprintf(m->text, sizeof m->text, "%s has no values, or some that its type hasn't", in_process((uint64_t)v->name));
            kf_refuse("Build", 0, m->text);
        }
    }
}

static uint64_t common_divisor(uint64_t a, uint64_t b) { return b ? common_divisor(b, a % b) : a; }

/* The stride meets every run, and the first runs lie far apart: for a tracer that may not come to the end. */
static void begin(struct kf_control *control)
{
    m->control = control;
    m->variables = (struct kf_variable *)in_process(control->variables);
    m->variable_count = control->variable_count;
    check_variables();
    m->public_count = count_of(KF_PUBLIC);
    m->secret_count = count_of(KF_SECRET);
    m->noise_count = count_of(KF_NOISE);
    m->run_count = 0;
    if (m->secret_count > 65536)
        kf_refuse("Large", 0, "there are more than 65,536 secrets");
    if (m->secret_count < 2)
        kf_refuse("Nothing", 0, "there is no secret of two values");
    if (m->public_count > 65536 || m->noise_count > 65536 || m->public_count * m->secret_count * m->noise_count > ((uint64_t)1 << 22))
        kf_refuse("Large", 0, "there are more than four million runs");
    m->run_count = m->public_count * m->secret_count * m->noise_count;
    m->classes = shared(m->run_count * sizeof *m->classes);
    memset(m->classes, 0xff, m->run_count * sizeof *m->classes);
    m->stride = m->run_count * 5 / 8 | 1;
    while (common_divisor(m->stride, m->run_count) != 1)
        m->stride += 2;
    control->stop = 0;
}

static void first_pass(void)
{
    m->phase = FIRST;
    m->position = 0;
    m->runs_done = m->all_steps = m->all_events = 0;
    m->copies = copy_of_memory();
    m->control->fresh_break = (uint64_t)m->is_snapshot;
    if (kf_ready)
        kf_ready();
    m->begun = now();
    prepare(0, m->is_sampled ? 0x5a : 0);
}

static void next_of_first_pass(void)
{
    after_first();
    if (++m->position < m->run_count && !(m->is_sampled && out_of_time()))
        prepare(m->is_sampled ? m->position * m->stride % m->run_count : m->position, m->is_sampled ? 0x5a : 0);
    else if (m->is_sampled)
        done();
    else {
        m->phase = AGAIN;
        prepare(--m->position, 0xa5);
    }
}

void kf_next(struct kf_control *control)
{
    kf_on = 0;
    if (m->phase == BEGINNING) {
        begin(control);
        m->phase = MEETING;
        control->wants_maps = 1;
        return;
    }
    if (control->crashed) {
        snprintf(m->text, sizeof m->text, "a run is ended by signal %lu", control->crashed);
        kf_refuse(control->crashed == 4 ? "Undecoded" : "Crash", control->crashed_at, m->text);
    }
    if (m->phase == MEETING || m->phase == MAPPING) {
        control->wants_maps = 0;
        if (m->phase == MAPPING) {
            first_pass();
            return;
        }
        m->phase = WARMING;
        prepare(0, 0);
        return;
    }
    finish();
    if (m->phase == WARMING) {
        m->phase = MAPPING;
        control->wants_maps = 1;
    } else if (m->phase == FIRST)
        next_of_first_pass();
    else if (m->phase == AGAIN) {
        compare_again();
        if (m->position > 0)
            prepare(--m->position, 0xa5);
        else if (m->differing) {
            m->phase = DIAGNOSING;
            diagnose();
        } else
            done();
    } else
        diagnose();
}

static struct table new_table(size_t size) { return (struct table){shared(size * sizeof(uint32_t)), size}; }

/* Reads the environment's KUIFJE_TRACE: "FOLDER snapshot steps bytes seconds", the folder without blanks. */
int kf_start(const char *tracer, const struct kf_machine *machine, uint64_t base)
{
    const char *options = getenv("KUIFJE_TRACE");
    uint64_t bytes;
    m = shared(sizeof *m);
    if (!options || sscanf(options, "%2999s %d %lu %lu %lf", m->folder, &m->is_snapshot, &m->step_bound, &bytes, &m->seconds) != 5)
        return 0;
    snprintf(m->tracer, sizeof m->tracer, "%s", tracer);
    m->machine = machine;
    m->base = base;
    m->is_always_on = !strcmp(tracer, "divisions");
    m->is_sampled = !strcmp(tracer, "processor") || m->is_always_on;
    m->begun = now();
    m->sites = shared(MOST_SITES * sizeof *m->sites);
    m->site_table = new_table(MOST_SITES * 2);
    m->skeleton_table = new_table(MOST_TRACES * 2);
    m->trace_table = new_table(MOST_TRACES * 2);
    m->skeleton_starts = shared((MOST_TRACES + 1) * 8);
    m->skeleton_hashes = shared(MOST_TRACES * 8);
    m->trace_hashes = shared(MOST_TRACES * 8);
    m->traces = shared(MOST_TRACES * sizeof *m->traces);
    m->sites_of_run = shared(MOST_EVENTS * 4);
    m->values_of_run = shared((MOST_EVENTS + MOST_ACCESSES) * 8);
    open_file(&m->skeletons, "skeletons", bytes);
    open_file(&m->values, "values", bytes);
    return 1;
}
