/* What the driver, which is part of the measured process, and a tracer share. */
#ifndef KF_CONTROL_H
#define KF_CONTROL_H
#include <stdint.h>

/* A system call that no kernel has: by it the driver calls the plugin of the emulator. */
#define KF_CALL 0x4b55494aul
enum kf_question { KF_NEXT, KF_OBSERVED, KF_OBSERVED_BYTES };

/* A part of the process's writable memory. */
struct kf_part { uint64_t at, size; };

/* All fields have 64 bits, so that both sides agree on any architecture. Addresses are the measured process's. */
struct kf_control {
    uint64_t go, back;                    /* of the call of kuifje_run, and where it returns to */
    uint64_t hidden, hidden_end;          /* code of the driver that may run in between, and isn't recorded */
    uint64_t observe, observe_bytes;      /* where that code is entered */
    uint64_t crash_handler;
    uint64_t stack, stack_size;           /* on which kuifje_run is called */
    uint64_t variables, variable_count;
    uint64_t maps, maps_size;             /* the text of /proc/self/maps */
    uint64_t parts, part_count;
    uint64_t wants_maps, fresh_break, stop; /* what the tracer asks the driver to do */
    uint64_t poison, crashed, crashed_at;
    int64_t result;
};
#endif
