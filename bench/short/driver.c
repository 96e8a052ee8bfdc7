/* Runs the phases of `src/lib.rs` over so many pairs. `malloc` refuses the request by which a phase ends, and calls `mark`, where callgrind notes what it
 * counted. A job's first request of that kind comes when its collection is made, which is not counted. */
#include <stdbool.h>
#include <stdint.h>
#include <stdlib.h>
#include <valgrind/callgrind.h>

#define MARK ((size_t)1 << 62)

typedef bool job(uint64_t pairs, uint64_t *checksum);

job short_reads, short_writes, short_wholes, short_sets, short_operations, short_hashed, short_cache, short_rows, short_stretches, short_timers, short_vectors;

void *__real_malloc(size_t size);

__attribute__((noinline)) void mark(void) { __asm__ volatile(""); }

void *__wrap_malloc(size_t size) {
    if (size == MARK) {
        CALLGRIND_START_INSTRUMENTATION;
        mark();
        return NULL;
    }
    return __real_malloc(size);
}

int main(int count, char **words) {
    job *jobs[] = {short_reads, short_writes, short_wholes, short_sets, short_operations, short_hashed,
                   short_cache, short_rows, short_stretches, short_timers, short_vectors};
    uint64_t checksum = 0;
    for (size_t i = 0; i < sizeof jobs / sizeof *jobs; i++) {
        if (!jobs[i](count > 1 ? strtoull(words[1], NULL, 10) : 1000, &checksum))
            return 1;
        CALLGRIND_STOP_INSTRUMENTATION;
    }
    return 0;
}
