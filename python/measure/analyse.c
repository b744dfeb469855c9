/* What is worked out from the traces: the partition that a model sees, the forks of the tree of traces, what is left where some sites and all that they
   control show nothing, and whether two tracers saw the same. Loaded by kuifje.measured. */
#define _GNU_SOURCE
#include <fcntl.h>
#include <stdio.h>
#include <stdlib.h>
#include <string.h>
#include <sys/mman.h>
#include <sys/stat.h>
#include <unistd.h>
#include "analyse.h"

/* A model: bit k says that events of kind k are seen; addresses are seen in units of 2^shift bytes. */
struct model { uint32_t kinds, shift; };

static void *file(const char *folder, const char *name, size_t *size)
{
    char path[4096];
    struct stat status;
    snprintf(path, sizeof path, "%s/%s", folder, name);
    int number = open(path, O_RDONLY | O_CLOEXEC);
    if (number < 0 || fstat(number, &status) != 0)
        return 0;
    *size = (size_t)status.st_size;
    void *at = mmap(0, *size ? *size : 1, PROT_READ, MAP_PRIVATE, number, 0);
    close(number);
    return at == MAP_FAILED ? 0 : at;
}

void kf_close(struct measurement *m)
{
    kf_free_graph(m->graph);
    void *all[] = {m->sites, m->skeletons, m->starts, m->values, m->traces, m->classes};
    for (int i = 0; i < 6; i++)
        if (all[i])
            munmap(all[i], m->sizes[i] ? m->sizes[i] : 1);
    free(m);
}

struct measurement *kf_open(const char *folder)
{
    struct measurement *m = calloc(1, sizeof *m);
    if (!m)
        return 0;
    m->sites = file(folder, "sites", &m->sizes[0]);
    m->skeletons = file(folder, "skeletons", &m->sizes[1]);
    m->starts = file(folder, "skeleton-starts", &m->sizes[2]);
    m->values = file(folder, "values", &m->sizes[3]);
    m->traces = file(folder, "traces", &m->sizes[4]);
    m->classes = file(folder, "classes", &m->sizes[5]);
    if (!m->sites || !m->skeletons || !m->starts || !m->values || !m->traces || !m->classes) {
        kf_close(m);
        return 0;
    }
    m->site_count = m->sizes[0] / sizeof *m->sites;
    m->skeleton_count = m->sizes[2] / 8 - 1;
    m->trace_count = m->sizes[4] / sizeof *m->traces;
    m->run_count = m->sizes[5] / 4;
    return m;
}

void kf_sizes(const struct measurement *m, uint64_t sizes[5])
{
    sizes[0] = m->site_count, sizes[1] = m->skeleton_count, sizes[2] = m->trace_count, sizes[3] = m->run_count, sizes[4] = m->starts[m->skeleton_count];
}

void kf_site(const struct measurement *m, uint64_t number, uint64_t out[5])
{
    const struct kf_site *site = &m->sites[number];
    out[0] = site->kind, out[1] = site->way, out[2] = site->size, out[3] = site->pc, out[4] = site->to;
}

/* ---- what a model sees of a trace */

/* What is seen of an event: two words; of an access the first and the last unit. */
static void seen(const struct model *model, const struct kf_site *site, uint64_t value, uint64_t words[2])
{
    words[0] = value;
    words[1] = 0;
    if (site->kind == KF_LOAD || site->kind == KF_STORE) {
        words[0] = value >> model->shift;
        words[1] = (value + (site->size ? site->size - 1 : 0)) >> model->shift;
    }
}

/* What is seen of a site, beside its place: of an access in wider units not its size. */
static uint64_t site_word(const struct model *model, const struct kf_site *site)
{
    int is_access = site->kind == KF_LOAD || site->kind == KF_STORE;
    return (uint64_t)site->kind << 48 | (uint64_t)site->way << 40 | (is_access && model->shift ? 0 : site->size);
}

/* The events of each skeleton that a model sees: their places in the skeleton, and before each how many events with values there are. */
struct view {
    const struct measurement *m;
    struct model model;
    uint64_t *starts;          /* for each skeleton where its seen events begin */
    uint32_t *places, *values; /* for each seen event */
};

static void free_view(struct view *v)
{
    free(v->starts), free(v->places), free(v->values);
}

/* `keep`, where it is given, has a byte for each event of each skeleton: 0 where it shows nothing. */
static int make_view(struct view *v, const struct measurement *m, struct model model, const uint8_t *keep)
{
    uint64_t all = m->starts[m->skeleton_count], count = 0;
    *v = (struct view){m, model, malloc((m->skeleton_count + 1) * 8), malloc(all * 4 + 4), malloc(all * 4 + 4)};
    if (!v->starts || !v->places || !v->values) {
        free_view(v);
        return 0;
    }
    for (uint64_t k = 0; k < m->skeleton_count; k++) {
        uint32_t values = 0;
        v->starts[k] = count;
        for (uint64_t i = m->starts[k]; i < m->starts[k + 1]; i++) {
            const struct kf_site *site = &m->sites[m->skeletons[i]];
            if ((model.kinds >> site->kind & 1) && (!keep || keep[i])) {
                v->places[count] = (uint32_t)(i - m->starts[k]);
                v->values[count++] = values;
            }
            values += (uint32_t)kf_has_value(site);
        }
    }
    v->starts[m->skeleton_count] = count;
    return 1;
}

static uint64_t length(const struct view *v, uint32_t trace)
{
    uint32_t k = v->m->traces[trace].skeleton;
    return v->starts[k + 1] - v->starts[k];
}

/* The event at a position of what is seen of a trace: four words, which are equal exactly where the events are seen to be equal. */
static const struct kf_site *event_at(const struct view *v, uint32_t trace, uint64_t position, uint64_t words[4])
{
    const struct kf_trace *t = &v->m->traces[trace];
    uint64_t at = v->starts[t->skeleton] + position;
    const struct kf_site *site = &v->m->sites[v->m->skeletons[v->m->starts[t->skeleton] + v->places[at]]];
    uint64_t value = kf_has_value(site) ? v->m->values[t->values + v->values[at]] : site->to;
    seen(&v->model, site, value, words);
    words[2] = site->pc;
    words[3] = site_word(&v->model, site);
    return site;
}

static int same_seen(const struct view *v, uint32_t a, uint32_t b)
{
    uint64_t n = length(v, a), x[4], y[4];
    if (a == b)
        return 1;
    if (n != length(v, b))
        return 0;
    for (uint64_t i = 0; i < n; i++) {
        event_at(v, a, i, x);
        event_at(v, b, i, y);
        if (memcmp(x, y, sizeof x))
            return 0;
    }
    return 1;
}

static uint64_t hash_seen(const struct view *v, uint32_t trace)
{
    uint64_t n = length(v, trace), hash = n * 0x9e3779b97f4a7c15ull, words[4];
    for (uint64_t i = 0; i < n; i++) {
        event_at(v, trace, i, words);
        for (int j = 0; j < 4; j++)
            hash = (hash ^ words[j]) * 0xff51afd7ed558ccdull;
        hash ^= hash >> 32;
    }
    return hash;
}

/* For each trace that a run has the number of its class, and how many classes there are; a hash finds candidates, which are compared whole. */
static int64_t group(const struct view *v, const uint8_t *used, uint32_t *classes, uint32_t *leaders)
{
    uint64_t n = v->m->trace_count, size = 1;
    while (size < 2 * n + 2)
        size *= 2;
    uint32_t *table = calloc(size, 4), count = 0;
    uint64_t *hashes = malloc(n * 8 + 8);
    if (!table || !hashes) {
        free(table), free(hashes);
        return -1;
    }
    for (uint32_t t = 0; t < n; t++) {
        if (!used[t])
            continue;
        hashes[t] = hash_seen(v, t);
        uint64_t at = hashes[t] & (size - 1);
        while (table[at] && !(hashes[table[at] - 1] == hashes[t] && same_seen(v, table[at] - 1, t)))
            at = (at + 1) & (size - 1);
        if (table[at])
            classes[t] = classes[table[at] - 1];
        else {
            table[at] = t + 1;
            leaders[count] = t;
            classes[t] = count++;
        }
    }
    free(table), free(hashes);
    return count;
}

/* Some of the runs: those of one value of the public inputs. */
struct range { uint64_t first, end; };

static uint8_t *used_traces(const struct measurement *m, struct range runs)
{
    uint8_t *used = calloc(m->trace_count + 1, 1);
    for (uint64_t i = runs.first; used && i < runs.end; i++)
        if (m->classes[i] != ~0u)
            used[m->classes[i]] = 1;
    return used;
}

/* For each of some runs the number of its class, by first occurrence; ~0 where it wasn't made. Gives how many classes there are, and -1 for want of
   memory. */
int64_t kf_partition(const struct measurement *m, uint32_t kinds, uint32_t shift, const uint8_t *keep, uint64_t first, uint64_t end, uint32_t *out)
{
    struct view v;
    uint8_t *used = used_traces(m, (struct range){first, end});
    uint32_t *classes = malloc(m->trace_count * 4 + 4), *leaders = malloc(m->trace_count * 4 + 4), *rank = 0;
    int64_t count = -1, next = 0;
    if (used && classes && leaders && make_view(&v, m, (struct model){kinds, shift}, keep)) {
        count = group(&v, used, classes, leaders);
        free_view(&v);
    }
    if (count >= 0 && (rank = malloc((size_t)count * 4 + 4))) {
        memset(rank, 0xff, (size_t)count * 4);
        for (uint64_t i = first; i < end; i++) {
            uint32_t trace = m->classes[i];
            if (trace != ~0u && rank[classes[trace]] == ~0u)
                rank[classes[trace]] = (uint32_t)next++;
            out[i - first] = trace == ~0u ? ~0u : rank[classes[trace]];
        }
    } else
        count = -1;
    free(used), free(classes), free(leaders), free(rank);
    return count;
}

/* ---- the tree of what is seen: where traces with one history part */

/* A fork: the traces order[low..high) agree up to `position`, and part there. `event` is the place of that event among all events of the skeletons, of
   the first of them that has one. */
struct fork { uint64_t low, high, position, event, children; };

struct key { uint64_t words[4]; uint32_t trace; int ended; };

static int compare_keys(const void *a, const void *b)
{
    const struct key *x = a, *y = b;
    if (x->ended != y->ended)
        return x->ended ? -1 : 1;
    int decided = x->ended ? 0 : memcmp(x->words, y->words, sizeof x->words);
    return decided ? decided : (x->trace > y->trace) - (x->trace < y->trace);
}

static struct key key_of(const struct view *v, uint32_t trace, uint64_t position)
{
    struct key key = {.trace = trace, .ended = position >= length(v, trace)};
    if (!key.ended)
        event_at(v, trace, position, key.words);
    return key;
}

static int parts(const struct key *a, const struct key *b)
{
    return a->ended != b->ended || (!a->ended && memcmp(a->words, b->words, sizeof a->words));
}

/* The first position from `position` on at which some traces aren't seen to agree; ~0 where they agree to the end. */
static uint64_t first_parting(const struct view *v, const uint32_t *traces, uint64_t count, uint64_t position)
{
    uint64_t least = ~(uint64_t)0;
    for (uint64_t i = 1; i < count; i++) {
        uint64_t n = length(v, traces[0]);
        for (uint64_t at = position; at <= n && at < least; at++) {
            struct key a = key_of(v, traces[0], at), b = key_of(v, traces[i], at);
            if (parts(&a, &b)) {
                least = at;
                break;
            }
        }
    }
    return least;
}

struct forks {
    struct fork *forks;
    uint64_t *children; /* one after the other, for each fork where its children begin, and where the last ends */
    uint64_t count, child_count;
};

static int part(const struct view *v, uint32_t *order, struct fork *fork, struct forks *out)
{
    uint64_t n = fork->high - fork->low;
    struct key *keys = malloc(n * sizeof *keys);
    if (!keys)
        return 0;
    for (uint64_t i = 0; i < n; i++)
        keys[i] = key_of(v, order[fork->low + i], fork->position);
    qsort(keys, n, sizeof *keys, compare_keys);
    uint64_t first = 0;
    while (first < n && keys[first].ended)
        first++;
    const struct kf_trace *t = &v->m->traces[keys[first].trace];
    fork->event = v->m->starts[t->skeleton] + v->places[v->starts[t->skeleton] + fork->position];
    fork->children = 0;
    for (uint64_t i = 0; i < n; i++) {
        order[fork->low + i] = keys[i].trace;
        if (i == 0 || parts(&keys[i], &keys[i - 1])) {
            out->children[out->child_count++] = fork->low + i;
            fork->children++;
        }
    }
    out->children[out->child_count++] = fork->high;
    free(keys);
    return 1;
}

static int64_t all_forks(const struct view *v, uint32_t *order, uint64_t count, struct forks *out)
{
    struct fork *work = malloc((count + 1) * sizeof *work);
    uint64_t open = 0;
    if (!work)
        return -1;
    if (count > 1)
        work[open++] = (struct fork){.low = 0, .high = count};
    while (open) {
        struct fork fork = work[--open];
        fork.position = first_parting(v, order + fork.low, fork.high - fork.low, fork.position);
        uint64_t from = out->child_count;
        if (!part(v, order, &fork, out)) {
            free(work);
            return -1;
        }
        out->forks[out->count++] = fork;
        for (uint64_t i = from; i + 1 < out->child_count; i++)
            if (out->children[i + 1] - out->children[i] > 1)
                work[open++] = (struct fork){.low = out->children[i], .high = out->children[i + 1], .position = fork.position + 1};
    }
    free(work);
    return (int64_t)out->count;
}

/* The forks of the tree that a model sees of some runs. `order` gets one trace of each class, those that agree longest side by side, and `class_of` for each of these
   the number of its class as kf_partition has it. Each fork has five words in `forks` (struct fork); its children begin at the places of `order` that
   stand in `children`, with the end of the last. There is room for as many forks as traces, and for three times as many children.
   Gives the number of forks, and -1 for want of memory. */
int64_t kf_forks(const struct measurement *m, uint32_t kinds, uint32_t shift, const uint8_t *keep, uint64_t first, uint64_t end, uint32_t *order,
                 uint32_t *class_of, struct fork *forks, uint64_t *children)
{
    struct view v;
    struct forks out = {forks, children, 0, 0};
    uint8_t *used = used_traces(m, (struct range){first, end});
    uint32_t *classes = malloc(m->trace_count * 4 + 4), *rank = malloc(m->trace_count * 4 + 4);
    int64_t found = -1, count = -1;
    if (used && classes && rank && make_view(&v, m, (struct model){kinds, shift}, keep)) {
        count = group(&v, used, classes, order);
        if (count >= 0)
            found = all_forks(&v, order, (uint64_t)count, &out);
        free_view(&v);
    }
    if (found >= 0) {
        uint32_t next = 0;
        memset(rank, 0xff, m->trace_count * 4);
        for (uint64_t i = first; i < end; i++)
            if (m->classes[i] != ~0u && rank[classes[m->classes[i]]] == ~0u)
                rank[classes[m->classes[i]]] = next++;
        for (int64_t i = 0; i < count; i++)
            class_of[i] = rank[classes[order[i]]];
    }
    free(used), free(classes), free(rank);
    return found;
}

/* Of what two traces show, where they part: the places of both events among all events of the skeletons (~0 where a trace has ended), and their values.
   Gives 0 where they don't part. */
int kf_difference(const struct measurement *m, uint32_t kinds, uint32_t shift, uint32_t a, uint32_t b, uint64_t out[4])
{
    struct view v;
    uint32_t both[2] = {a, b};
    if (!make_view(&v, m, (struct model){kinds, shift}, 0))
        return -1;
    uint64_t position = first_parting(&v, both, 2, 0);
    for (int i = 0; i < 2 && position != ~(uint64_t)0; i++) {
        const struct kf_trace *t = &m->traces[both[i]];
        uint64_t words[4];
        out[2 * i] = ~(uint64_t)0, out[2 * i + 1] = 0;
        if (position >= length(&v, both[i]))
            continue;
        uint64_t at = v.starts[t->skeleton] + position, event = m->starts[t->skeleton] + v.places[at];
        const struct kf_site *site = event_at(&v, both[i], position, words);
        out[2 * i] = event;
        out[2 * i + 1] = kf_has_value(site) ? m->values[t->values + v.values[at]] : site->to;
    }
    free_view(&v);
    return position != ~(uint64_t)0;
}

/* The number of the site of an event. */
uint32_t kf_site_of(const struct measurement *m, uint64_t event) { return m->skeletons[event]; }

/* ---- two tracers: the same events, but for where lines of 64 bytes lie, which one map must carry from one to the other and back */

struct map { uint64_t *from, *to; uint64_t size, used; };

static int new_map(struct map *map, uint64_t size)
{
    *map = (struct map){calloc(size, 8), calloc(size, 8), size, 0};
    return map->from && map->to;
}

/* Whether a goes to b; where it hasn't gone anywhere before, it does from now on. */
static int goes(struct map *map, uint64_t a, uint64_t b)
{
    uint64_t at = (a + 1) * 0x9e3779b97f4a7c15ull >> 20 & (map->size - 1);
    while (map->from[at] && map->from[at] != a + 1)
        at = (at + 1) & (map->size - 1);
    if (map->from[at])
        return map->to[at] == b;
    if (2 * ++map->used > map->size)
        return 0;
    map->from[at] = a + 1;
    map->to[at] = b;
    return 1;
}

struct comparison { const struct measurement *a, *b; struct map there, back; uint32_t kinds; };

static int both_go(struct comparison *c, uint64_t a, uint64_t b, int shift, uint64_t tag)
{
    return (a & (((uint64_t)1 << shift) - 1)) == (b & (((uint64_t)1 << shift) - 1)) && goes(&c->there, a >> shift << 2 | tag, b >> shift) &&
           goes(&c->back, b >> shift << 2 | tag, a >> shift);
}

static int same_event(struct comparison *c, const struct kf_site *x, uint64_t v, const struct kf_site *y, uint64_t w)
{
    if (x->kind != y->kind || x->way != y->way || x->size != y->size || !both_go(c, x->pc, y->pc, 12, 1))
        return 0;
    switch (x->kind) {
    case KF_TRANSFER: return both_go(c, x->to, y->to, 12, 1);
    case KF_LOAD:
    case KF_STORE: return both_go(c, v, w, 6, 2);
    case KF_CALLED: return x->to == y->to && v == w;
    case KF_ANSWERED: return x->to == y->to; /* an address may be another one */
    default: return v == w;
    }
}

/* The next event of a trace of a kind that both tracers record. */
struct cursor { const struct measurement *m; const struct kf_trace *trace; uint64_t at, value; };

static const struct kf_site *next_event(struct cursor *c, uint32_t kinds, uint64_t *value)
{
    while (c->at < c->m->starts[c->trace->skeleton + 1]) {
        const struct kf_site *site = &c->m->sites[c->m->skeletons[c->at++]];
        *value = kf_has_value(site) ? c->m->values[c->trace->values + c->value++] : 0;
        if (kinds >> site->kind & 1)
            return site;
    }
    return 0;
}

static int compare_traces(struct comparison *c, uint32_t ta, uint32_t tb, uint64_t pcs[2])
{
    struct cursor a = {c->a, &c->a->traces[ta], c->a->starts[c->a->traces[ta].skeleton], 0};
    struct cursor b = {c->b, &c->b->traces[tb], c->b->starts[c->b->traces[tb].skeleton], 0};
    for (;;) {
        uint64_t v, w;
        const struct kf_site *x = next_event(&a, c->kinds, &v), *y = next_event(&b, c->kinds, &w);
        if (!x && !y)
            return 1;
        pcs[0] = x ? x->pc : 0;
        pcs[1] = y ? y->pc : 0;
        if (!x || !y || !same_event(c, x, v, y, w))
            return 0;
    }
}

/* Compares the runs that both tracers made, event by event of these kinds. out: the runs compared; and where they differ the run, and the instruction of each.
   Gives 1 where they agree, 0 where they don't, and -1 for want of memory. */
int kf_agree(const struct measurement *a, const struct measurement *b, uint32_t kinds, uint64_t out[4])
{
    struct comparison c = {.a = a, .b = b, .kinds = kinds};
    int agree = new_map(&c.there, 1 << 22) && new_map(&c.back, 1 << 22) ? 1 : -1;
    uint32_t *compared = calloc(b->trace_count + 1, 4);
    out[0] = 0;
    for (uint64_t i = 0; agree == 1 && compared && i < a->run_count && i < b->run_count; i++) {
        if (b->classes[i] == ~0u || a->classes[i] == ~0u)
            continue;
        uint32_t *with = &compared[b->classes[i]];
        if (*with != a->classes[i] + 1) {
            if (!compare_traces(&c, a->classes[i], b->classes[i], out + 2)) {
                out[1] = i;
                agree = 0;
            }
            *with = a->classes[i] + 1;
        }
        out[0]++;
    }
    free(compared), free(c.there.from), free(c.there.to), free(c.back.from), free(c.back.to);
    return compared ? agree : -1;
}

/* ---- the emulator's traces, and the operands of divisions from another tracer, as one */

struct merged {
    const struct measurement *a, *b;
    FILE *sites, *skeletons, *starts, *values, *traces, *classes;
    uint64_t event_count, value_count;
    uint32_t site_count, trace_count;
    struct map operands, pairs; /* a division's instruction to its first operand's site, and two traces to one */
};

static uint64_t found(const struct map *map, uint64_t a)
{
    uint64_t at = (a + 1) * 0x9e3779b97f4a7c15ull >> 20 & (map->size - 1);
    while (map->from[at] && map->from[at] != a + 1)
        at = (at + 1) & (map->size - 1);
    return map->from[at] ? map->to[at] : ~(uint64_t)0;
}

/* The number of the first of three sites for the operands of a division. */
static uint32_t operand_sites(struct merged *m, uint64_t pc)
{
    uint64_t known = found(&m->operands, pc);
    if (known != ~(uint64_t)0)
        return (uint32_t)known;
    goes(&m->operands, pc, m->site_count);
    for (uint16_t way = 0; way < 3; way++) {
        struct kf_site site = {.pc = pc, .kind = KF_OPERAND, .way = way};
        fwrite(&site, sizeof site, 1, m->sites);
    }
    m->site_count += 3;
    return m->site_count - 3;
}

static void put_event(struct merged *m, uint32_t site)
{
    fwrite(&site, 4, 1, m->skeletons);
    m->event_count++;
}

static void put_value(struct merged *m, uint64_t value)
{
    fwrite(&value, 8, 1, m->values);
    m->value_count++;
}

/* Each trace has a skeleton of its own. */
static void merge_traces(struct merged *m, uint32_t ta, uint32_t tb)
{
    const struct kf_trace *a = &m->a->traces[ta], *b = &m->b->traces[tb];
    uint64_t value = 0, operand = 0;
    struct kf_trace new = {m->trace_count++, 0, m->value_count};
    fwrite(&m->event_count, 8, 1, m->starts);
    for (uint64_t i = m->a->starts[a->skeleton]; i < m->a->starts[a->skeleton + 1]; i++) {
        const struct kf_site *site = &m->a->sites[m->a->skeletons[i]];
        put_event(m, m->a->skeletons[i]);
        if (kf_has_value(site))
            put_value(m, m->a->values[a->values + value++]);
        for (uint32_t j = 0; site->kind == KF_DIVISION && j < 3; j++) {
            put_event(m, operand_sites(m, site->pc) + j);
            put_value(m, m->b->values[b->values + operand++]);
        }
    }
    new.count = (uint32_t)(m->value_count - new.values);
    fwrite(&new, sizeof new, 1, m->traces);
}

static FILE *create(const char *folder, const char *name)
{
    char path[4096];
    snprintf(path, sizeof path, "%s/%s", folder, name);
    return fopen(path, "wb");
}

/* Writes both into a folder; they must agree on divisions (kf_agree). Gives 0 where that can't be done. */
int kf_merge(const struct measurement *a, const struct measurement *b, const char *folder)
{
    struct merged m = {.a = a, .b = b, .site_count = (uint32_t)a->site_count};
    FILE **files[] = {&m.sites, &m.skeletons, &m.starts, &m.values, &m.traces, &m.classes};
    const char *names[] = {"sites", "skeletons", "skeleton-starts", "values", "traces", "classes"};
    int ready = new_map(&m.operands, 1 << 14) && new_map(&m.pairs, 1 << 23), closed = 1;
    for (int i = 0; i < 6; i++)
        ready &= (*files[i] = create(folder, names[i])) != 0;
    if (ready)
        fwrite(a->sites, sizeof *a->sites, a->site_count, m.sites);
    for (uint64_t i = 0; ready && i < a->run_count; i++) {
        uint64_t pair = (uint64_t)a->classes[i] << 32 | b->classes[i];
        if (found(&m.pairs, pair) == ~(uint64_t)0) {
            ready = goes(&m.pairs, pair, m.trace_count);
            merge_traces(&m, a->classes[i], b->classes[i]);
        }
        uint32_t number = (uint32_t)found(&m.pairs, pair);
        fwrite(&number, 4, 1, m.classes);
    }
    if (ready)
        fwrite(&m.event_count, 8, 1, m.starts);
    for (int i = 0; i < 6; i++)
        closed &= *files[i] && fclose(*files[i]) == 0;
    free(m.operands.from), free(m.operands.to), free(m.pairs.from), free(m.pairs.to);
    return ready && closed;
}
