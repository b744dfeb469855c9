/* What a harness includes: its secrets with their bounded domains, and what is run. See docs/MEASURED.md. */
#ifndef KUIFJE_MEASURE_H
#define KUIFJE_MEASURE_H
#include <stddef.h>
#include <stdint.h>

#ifdef __cplusplus
extern "C" {
#endif

enum kf_role { KF_SECRET, KF_PUBLIC, KF_NOISE };

/* A declared array: each of its entries takes each value from low to high. All fields have 64 bits, so that a tracer can read them. */
struct kf_variable {
    const char *name;
    void *at;
    uint64_t size, count; /* bytes of an entry, and entries */
    int64_t low, high;
    uint64_t role;
    const uint64_t *weights; /* of low, low + 1, .. for each entry alike; none where all weigh the same */
};

void kf_declare(struct kf_variable variable);
void kf_weigh(const void *at, const uint64_t *weights, uint64_t count);

/* The value is seen, as by observe in the language; or these bytes with their length. */
void kuifje_observe(long value);
void kuifje_observe_bytes(const void *at, size_t length);

/* The code under measurement. Its value is what is returned. */
long kuifje_run(void);

#define KUIFJE_DECLARE(type, name, count, from, to, role)                                          \
    type name[count];                                                                              \
    __attribute__((constructor(201))) static void kf_declare_##name(void)                          \
    {                                                                                              \
        struct kf_variable kf_new = {#name, name, sizeof(type), count, from, to, role, 0};         \
        kf_declare(kf_new);                                                                        \
    }

/* An array of so many entries, each of which takes every value from .. to. What is asked is how much of all secrets together is seen. */
#define KUIFJE_SECRET(type, name, count, from, to) KUIFJE_DECLARE(type, name, count, from, to, KF_SECRET)
/* Known to the adversary: there is one answer for each of its values, and the worst is named. */
#define KUIFJE_PUBLIC(type, name, count, from, to) KUIFJE_DECLARE(type, name, count, from, to, KF_PUBLIC)
/* Drawn anew for each run, hidden, and not asked about: what the code takes for random. */
#define KUIFJE_NOISE(type, name, count, from, to) KUIFJE_DECLARE(type, name, count, from, to, KF_NOISE)

/* How much each value of a secret weighs, beginning with the least: whole numbers. An array's entries are independent. */
#define KUIFJE_WEIGHTS(name, ...)                                                                  \
    static const uint64_t kf_weights_##name[] = {__VA_ARGS__};                                     \
    __attribute__((constructor(202))) static void kf_weigh_##name(void)                            \
    {                                                                                              \
        kf_weigh(name, kf_weights_##name, sizeof kf_weights_##name / sizeof *kf_weights_##name);   \
    }

#ifdef __cplusplus
#define KUIFJE_MEASURE extern "C" long kuifje_run(void)
}
#else
#define KUIFJE_MEASURE long kuifje_run(void)
#endif
#endif
