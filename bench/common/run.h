// A pay run's bytes, which c/reefcushion.h lays out.
#pragma once
#include "../../c/reefcushion.h"

enum { PUT_BYTES = sizeof(struct reefcushion_put_record), REPLY_BYTES = sizeof(struct reefcushion_reply) };

static inline struct reefcushion_put_record put_record(uint64_t key, uint64_t value) {
    return (struct reefcushion_put_record){REEFCUSHION_PUT_LENGTH, REEFCUSHION_PUT_KIND, key, value};
}
