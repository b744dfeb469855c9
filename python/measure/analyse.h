/* A measurement as it is read from its files. */
#ifndef KF_ANALYSE_H
#define KF_ANALYSE_H
#include <stddef.h>
#include <stdint.h>
#include "monitor.h"

struct graph;

struct measurement {
    struct kf_site *sites;
    uint32_t *skeletons, *classes;
    uint64_t *starts, *values;
    struct kf_trace *traces;
    uint64_t site_count, skeleton_count, trace_count, run_count;
    size_t sizes[6];
    struct graph *graph; /* made when it is first asked for */
};

void kf_free_graph(struct graph *graph);

static inline int kf_has_value(const struct kf_site *site) { return site->kind != KF_TRANSFER && site->kind != KF_DIVISION; }
#endif
