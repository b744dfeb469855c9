/* What is left where some sites show nothing, and neither does what they control: from a branch on until its ways meet again.

   The blocks and the ways between them are those that were executed, by all runs. A block begins wherever control was transferred to, and a call counts
   as a way to the instruction after it. Where ways meet again is the nearest block through which each way to the function's end goes: the immediate
   post-dominator (Cooper, Harvey and Kennedy, "A simple, fast dominance algorithm", 2001). */
#include <stdlib.h>
#include <string.h>
#include "analyse.h"

#define NONE (~(uint32_t)0)

struct graph {
    uint64_t *leaders; /* where blocks begin, ascending */
    uint32_t count;    /* of blocks; the block of this number is the end of every function */
    uint32_t *from, *to; /* for each site of a transfer the block that it ends, and the block that it goes to */
    uint8_t *several;    /* for each site whether its instruction goes to several places */
    uint32_t *meet;      /* for each block its immediate post-dominator */
};

struct edges { uint64_t *slots; uint64_t size, used; };

/* ---- a way along a trace */

struct frame { uint32_t block; uint64_t back; };

/* Which function's code runs, and where its straight run began: a stack of calls. */
struct walk { struct frame *frames; size_t depth, room; uint64_t start; };

static int push(struct walk *w, uint32_t block, uint64_t back)
{
    if (w->depth == w->room) {
        size_t room = w->room ? 2 * w->room : 64;
        struct frame *frames = realloc(w->frames, room * sizeof *frames);
        if (!frames)
            return 0;
        w->frames = frames;
        w->room = room;
    }
    w->frames[w->depth++] = (struct frame){block, back};
    return 1;
}

/* The call that returns to an address; NONE where none does. Calls within it have ended, too. */
static uint32_t pop(struct walk *w, uint64_t to)
{
    for (size_t i = w->depth; i-- > 0;)
        if (w->frames[i].back == to) {
            w->depth = i;
            return w->frames[i].block;
        }
    return NONE;
}

static int is_observation(const struct kf_site *site) { return site->kind == KF_SEEN && site->way != 2; }

static int follow(struct walk *w, const struct graph *g, uint32_t number, const struct kf_site *site, uint32_t *caller)
{
    *caller = NONE;
    if (is_observation(site)) {
        pop(w, site->pc);
        w->start = site->pc;
    } else if (site->kind == KF_TRANSFER) {
        if (site->way == KF_CALLS && !push(w, g->from[number], site->pc + site->size))
            return 0;
        if (site->way == KF_RETURNS)
            *caller = pop(w, site->to);
        w->start = site->to;
    }
    return 1;
}

/* ---- the graph */

static int compare_addresses(const void *a, const void *b)
{
    uint64_t x = *(const uint64_t *)a, y = *(const uint64_t *)b;
    return (x > y) - (x < y);
}

/* The last block that begins at an address or before it. */
static uint32_t block_of(const struct graph *g, uint64_t pc)
{
    uint32_t low = 0, high = g->count;
    while (high - low > 1) {
        uint32_t middle = low + (high - low) / 2;
        if (g->leaders[middle] <= pc)
            low = middle;
        else
            high = middle;
    }
    return low;
}

static int add_edge(struct edges *e, uint32_t a, uint32_t b)
{
    uint64_t edge = ((uint64_t)a << 32 | b) + 1;
    if (2 * (e->used + 1) > e->size) {
        struct edges more = {calloc(2 * e->size, 8), 2 * e->size, 0};
        if (!more.slots)
            return 0;
        for (uint64_t i = 0; i < e->size; i++)
            if (e->slots[i])
                add_edge(&more, (uint32_t)((e->slots[i] - 1) >> 32), (uint32_t)(e->slots[i] - 1));
        free(e->slots);
        *e = more;
    }
    uint64_t at = edge * 0x9e3779b97f4a7c15ull >> 20 & (e->size - 1);
    while (e->slots[at] && e->slots[at] != edge)
        at = (at + 1) & (e->size - 1);
    e->used += !e->slots[at];
    e->slots[at] = edge;
    return 1;
}

static int find_leaders(struct graph *g, const struct measurement *m)
{
    g->leaders = malloc((2 * m->site_count + 1) * 8);
    g->from = malloc(m->site_count * 4 + 4);
    g->to = malloc(m->site_count * 4 + 4);
    g->several = calloc(m->site_count + 1, 1);
    if (!g->leaders || !g->from || !g->to || !g->several)
        return 0;
    uint64_t n = 0, kept = 0;
    for (uint64_t i = 0; i < m->site_count; i++) {
        const struct kf_site *site = &m->sites[i];
        if (site->kind == KF_TRANSFER)
            g->leaders[n++] = site->to;
        else if (is_observation(site))
            g->leaders[n++] = site->pc;
    }
    for (uint64_t k = 0; k < m->skeleton_count && n < 2 * m->site_count; k++)
        if (m->starts[k] < m->starts[k + 1])
            g->leaders[n++] = m->sites[m->skeletons[m->starts[k]]].pc;
    qsort(g->leaders, n, 8, compare_addresses);
    for (uint64_t i = 0; i < n; i++)
        if (i == 0 || g->leaders[i] != g->leaders[i - 1])
            g->leaders[kept++] = g->leaders[i];
    g->count = (uint32_t)kept;
    for (uint64_t i = 0; i < m->site_count; i++) {
        g->from[i] = block_of(g, m->sites[i].pc);
        g->to[i] = m->sites[i].kind == KF_TRANSFER ? block_of(g, m->sites[i].to) : NONE;
    }
    return n > 0;
}

static int compare_sites(const void *a, const void *b)
{
    const struct kf_site *x = *(const struct kf_site *const *)a, *y = *(const struct kf_site *const *)b;
    return (x->pc > y->pc) - (x->pc < y->pc);
}

static int find_several(struct graph *g, const struct measurement *m)
{
    const struct kf_site **sorted = malloc((m->site_count + 1) * sizeof *sorted);
    uint64_t n = 0;
    if (!sorted)
        return 0;
    for (uint64_t i = 0; i < m->site_count; i++)
        if (m->sites[i].kind == KF_TRANSFER && m->sites[i].way != KF_RETURNS)
            sorted[n++] = &m->sites[i];
    qsort(sorted, n, sizeof *sorted, compare_sites);
    for (uint64_t i = 1; i < n; i++)
        if (sorted[i]->pc == sorted[i - 1]->pc)
            g->several[sorted[i] - m->sites] = g->several[sorted[i - 1] - m->sites] = 1;
    free(sorted);
    return 1;
}

/* The ways of one skeleton; those along straight runs are noted once for each pair of blocks. */
static int add_ways(struct graph *g, const struct measurement *m, uint64_t skeleton, struct walk *w, struct edges *e, struct edges *runs)
{
    uint64_t first = m->starts[skeleton], last = m->starts[skeleton + 1];
    w->depth = 0;
    w->start = first < last ? m->sites[m->skeletons[first]].pc : 0;
    for (uint64_t i = first; i < last; i++) {
        uint32_t number = m->skeletons[i], caller;
        const struct kf_site *site = &m->sites[number];
        if (site->kind == KF_TRANSFER) {
            uint32_t block = g->from[number], start = block_of(g, w->start);
            uint64_t known = runs->used;
            if (!add_edge(runs, start, block))
                return 0;
            for (uint32_t b = start; known != runs->used && b < block; b++)
                if (!add_edge(e, b, b + 1))
                    return 0;
            if (site->way == KF_JUMP || site->way == KF_REPEATS)
                if (!add_edge(e, block, g->to[number]))
                    return 0;
        }
        if (!follow(w, g, number, site, &caller))
            return 0;
        if (site->kind == KF_TRANSFER && site->way == KF_RETURNS) {
            if (!add_edge(e, g->from[number], caller == NONE ? g->to[number] : g->count))
                return 0;
            if (caller != NONE && !add_edge(e, caller, g->to[number]))
                return 0;
        }
        if (is_observation(site) && i > first && m->sites[m->skeletons[i - 1]].kind == KF_TRANSFER &&
            !add_edge(e, g->from[m->skeletons[i - 1]], block_of(g, site->pc)))
            return 0;
    }
    return 1;
}

/* ---- post-dominators */

struct order { uint32_t *starts, *sources, *rank, *nodes; uint32_t reached; };

/* For each block the blocks that go to it, and the blocks in reverse post-order from the end, along ways backwards. */
static int order_blocks(struct order *o, const struct edges *e, uint32_t count)
{
    uint32_t *stack = malloc((count + 1) * 8), *next = calloc(count + 2, 4), top = 0, done = 0;
    *o = (struct order){calloc(count + 3, 4), malloc(e->used * 4 + 4), malloc((count + 1) * 4), malloc((count + 1) * 4), 0};
    if (!stack || !next || !o->starts || !o->sources || !o->rank || !o->nodes) {
        free(stack), free(next);
        return 0;
    }
    for (uint64_t i = 0; i < e->size; i++)
        if (e->slots[i])
            o->starts[(uint32_t)(e->slots[i] - 1) + 1]++;
    for (uint32_t i = 0; i <= count; i++)
        o->starts[i + 1] += o->starts[i];
    memcpy(next, o->starts, (count + 1) * 4);
    for (uint64_t i = 0; i < e->size; i++)
        if (e->slots[i])
            o->sources[next[(uint32_t)(e->slots[i] - 1)]++] = (uint32_t)((e->slots[i] - 1) >> 32);
    memcpy(next, o->starts, (count + 1) * 4);
    memset(o->rank, 0xff, (count + 1) * 4);
    stack[top++] = count;
    o->rank[count] = NONE - 1;
    while (top) {
        uint32_t node = stack[top - 1];
        if (next[node] < o->starts[node + 1]) {
            uint32_t source = o->sources[next[node]++];
            if (o->rank[source] == NONE) {
                o->rank[source] = NONE - 1;
                stack[top++] = source;
            }
        } else {
            o->nodes[done] = node;
            o->rank[node] = done++;
            top--;
        }
    }
    o->reached = done;
    free(stack), free(next);
    return 1;
}

static uint32_t common(const struct order *o, const uint32_t *meet, uint32_t a, uint32_t b)
{
    while (a != b) {
        while (o->rank[a] < o->rank[b])
            a = meet[a];
        while (o->rank[b] < o->rank[a])
            b = meet[b];
    }
    return a;
}

/* Along each block's ways on: where they meet, worked out again until nothing changes. */
static int find_meetings(struct graph *g, const struct edges *e)
{
    struct order o;
    uint32_t n = g->count, *starts = calloc(n + 3, 4), *targets = malloc(e->used * 4 + 4), *fill = calloc(n + 3, 4);
    g->meet = malloc((n + 1) * 4);
    int ready = starts && targets && fill && g->meet && order_blocks(&o, e, n);
    for (uint64_t i = 0; ready && i < e->size; i++)
        if (e->slots[i])
            starts[((e->slots[i] - 1) >> 32) + 1]++;
    for (uint32_t i = 0; ready && i <= n; i++)
        starts[i + 1] += starts[i];
    for (uint64_t i = 0; ready && i < e->size; i++)
        if (e->slots[i]) {
            uint32_t a = (uint32_t)((e->slots[i] - 1) >> 32);
            targets[starts[a] + fill[a]++] = (uint32_t)(e->slots[i] - 1);
        }
    if (ready) {
        memset(g->meet, 0xff, (n + 1) * 4);
        g->meet[n] = n;
        for (int changed = 1; changed;) {
            changed = 0;
            for (uint32_t i = o.reached; i-- > 0;) {
                uint32_t node = o.nodes[i], found = NONE;
                for (uint32_t j = starts[node]; node != n && j < starts[node + 1]; j++)
                    if (g->meet[targets[j]] != NONE)
                        found = found == NONE ? targets[j] : common(&o, g->meet, found, targets[j]);
                if (node != n && found != g->meet[node]) {
                    g->meet[node] = found;
                    changed = 1;
                }
            }
        }
        free(o.starts), free(o.sources), free(o.rank), free(o.nodes);
    }
    free(starts), free(targets), free(fill);
    return ready;
}

void kf_free_graph(struct graph *g)
{
    if (!g)
        return;
    free(g->leaders), free(g->from), free(g->to), free(g->several), free(g->meet);
    free(g);
}

static struct graph *make_graph(const struct measurement *m)
{
    struct graph *g = calloc(1, sizeof *g);
    struct walk w = {0};
    struct edges e = {calloc(1024, 8), 1024, 0}, runs = {calloc(1024, 8), 1024, 0};
    int ready = g && e.slots && runs.slots && find_leaders(g, m) && find_several(g, m);
    for (uint64_t k = 0; ready && k < m->skeleton_count; k++)
        ready = add_ways(g, m, k, &w, &e, &runs);
    ready = ready && find_meetings(g, &e);
    free(w.frames), free(e.slots), free(runs.slots);
    if (ready)
        return g;
    kf_free_graph(g);
    return 0;
}

/* ---- silence */

static int silence_one(const struct graph *g, const struct measurement *m, uint64_t skeleton, const uint8_t *chosen, struct walk *w, uint8_t *keep)
{
    uint64_t first = m->starts[skeleton], last = m->starts[skeleton + 1];
    int silent = 0;
    size_t depth = 0;
    uint64_t meeting = 0;
    w->depth = 0;
    w->start = first < last ? m->sites[m->skeletons[first]].pc : 0;
    for (uint64_t i = first; i < last; i++) {
        uint32_t number = m->skeletons[i], caller;
        const struct kf_site *site = &m->sites[number];
        int is_met = w->depth == depth && meeting && w->start <= meeting && meeting <= site->pc;
        silent = silent && w->depth >= depth && !is_met;
        keep[i] = !silent && !chosen[number];
        if (!silent && chosen[number] && g->several[number]) {
            uint32_t block = g->meet[g->from[number]];
            silent = 1;
            depth = w->depth;
            meeting = block < g->count ? g->leaders[block] : 0;
        }
        if (!follow(w, g, number, site, &caller))
            return 0;
    }
    return 1;
}

/* For each event of the skeletons whether it is still shown where the chosen sites (a byte for each) and what they control show nothing.
   Gives 0 for want of memory. */
int kf_silence(struct measurement *m, const uint8_t *chosen, uint8_t *keep)
{
    struct walk w = {0};
    if (!m->graph && !(m->graph = make_graph(m)))
        return 0;
    int ready = 1;
    for (uint64_t k = 0; ready && k < m->skeleton_count; k++)
        ready = silence_one(m->graph, m, k, chosen, &w, keep);
    free(w.frames);
    return ready;
}
