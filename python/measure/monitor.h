/* The part of a tracer that doesn't depend on how it traces: which runs are made, what memory they find, and the traces that they leave. */
#ifndef KF_MONITOR_H
#define KF_MONITOR_H
#include <stdint.h>
#include "control.h"

/* An event is a site and, of all kinds but a transfer, a value. */
enum kf_kind {
    KF_TRANSFER = 1, /* of control, at pc, to `to` */
    KF_LOAD,         /* the value is the address */
    KF_STORE,
    KF_DIVISION, /* of whole numbers, was executed; without a value */
    KF_OPERAND,  /* of that division: `way` says which */
    KF_SEEN,     /* by kuifje_observe; `way` is 1 of a length and 2 of bytes */
    KF_RETURNED,
    KF_CALLED,  /* the system; `to` is the number, the value the size */
    KF_ANSWERED /* by the system; the value is its result */
};
enum kf_way { KF_JUMP, KF_CALLS, KF_RETURNS, KF_REPEATS };

struct kf_site {
    uint64_t pc, to;
    uint32_t size; /* bytes of an access; of a transfer the length of its instruction */
    uint16_t kind, way;
};

/* A distinct trace: the number of its sequence of sites, and where its values begin and how many there are. */
struct kf_trace { uint32_t skeleton, count; uint64_t values; };

/* Instructions of one architecture. */
struct kf_machine { const char *name; int is_arm; };

int kf_start(const char *tracer, const struct kf_machine *machine, uint64_t base);
/* The next run is prepared, or control->stop or control->wants_maps says what to do first. */
void kf_next(struct kf_control *control);

extern int kf_on; /* a run is being recorded */
extern void (*kf_ready)(void); /* is called, where it is set, before the first run that counts */
void kf_count(int64_t instructions, uint64_t pc);
void kf_transfer(uint64_t from, uint32_t length, enum kf_way way, uint64_t to);
void kf_memory(enum kf_kind kind, uint32_t size, uint64_t pc, uint64_t address);
void kf_plain(enum kf_kind kind, uint16_t way, uint64_t pc, uint64_t value);
void kf_observed(uint64_t value, uint64_t pc);
void kf_observed_bytes(uint64_t at, uint64_t length, uint64_t pc);
void kf_system_call(uint64_t pc, uint64_t number, const uint64_t *words);
void kf_system_answer(uint64_t pc, uint64_t number, uint64_t result);
/* As kf_refuse, but for the first run of all, in which code may set itself up: there it does nothing. */
void kf_forbid(const char *word, uint64_t pc, const char *why);
/* There is no answer: the word of a refusal, the instruction at which it arose, and what happened. It doesn't return. */
void kf_refuse(const char *word, uint64_t pc, const char *why) __attribute__((noreturn));
#endif
