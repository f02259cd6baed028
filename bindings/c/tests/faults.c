/* Each allocation of a history with a collection fails in turn, and the call is made again. Each history goes on to its
 * end, and answers what it answers without a fault. Linked with -Wl,--wrap=malloc,--wrap=realloc. */
#include "gczone.h"

#include <stdio.h>
#include <stdlib.h>

static long left = -1; /* how many allocations still succeed; below 0, all do */
static long asked;
static int faults;

void *__real_malloc(size_t size);
void *__real_realloc(void *block, size_t size);
void *__wrap_malloc(size_t size);
void *__wrap_realloc(void *block, size_t size);

static bool may(void) {
    asked++;
    if (left < 0)
        return true;
    return left-- > 0;
}

void *__wrap_malloc(size_t size) {
    return may() ? __real_malloc(size) : NULL;
}

void *__wrap_realloc(void *block, size_t size) {
    return may() ? __real_realloc(block, size) : NULL;
}

#define DO(call)                                                                     \
    do {                                                                             \
        uint32_t status_ = (call);                                                   \
        if (status_ == GCZ_NO_MEMORY) {                                              \
            faults++;                                                                \
            left = -1;                                                               \
            status_ = (call);                                                        \
        }                                                                            \
        if (status_ != GCZ_DONE) {                                                   \
            printf("line %d: status %u\n", __LINE__, (unsigned)status_);             \
            exit(2);                                                                 \
        }                                                                            \
    } while (0)

/* A number that all answers of a history make. */
static uint64_t history(void) {
    gcz_t g = GCZ_CLOSED_HANDLE;
    gcz_name_t n;
    gcz_step_t step;
    gcz_compacted_t done;
    size_t grays, lines;
    uint64_t sum = 0, root;
    bool running = true;
    DO(gcz_open(&g));
    for (uint32_t zone = 0; zone < 3; zone++) {
        DO(gcz_zone(&g, &n));
        DO(gcz_comp(&g, zone, &n));
    }
    for (uint32_t count = 0; count < 200; count++) {
        DO(gcz_new(&g, 0, count % 3, 2, &n));
        sum = 31 * sum + n.number;
        if (count % 4 == 0) {
            DO(gcz_pin(&g, 0, &root));
            sum = 31 * sum + root;
        }
        if (count % 16 == 0)
            DO(gcz_unpin(&g, root));
        if (count % 3 == 1) {
            DO(gcz_wrap(&g, 1, 0, 0, &n));
            DO(gcz_map(&g, 2, 0, &n));
            DO(gcz_new(&g, 3, 0, 1, &n));
            DO(gcz_put(&g, 2, 3, 1));
            DO(gcz_watch(&g, 3));
        }
        if (count == 100)
            DO(gcz_begin(&g, 7));
        if (count > 100 && count % 10 == 0)
            DO(gcz_advance(&g, 3, &step));
    }
    DO(gcz_hold(&g, 5, 0));
    while (running) {
        DO(gcz_advance(&g, 50, &step));
        DO(gcz_running(&g, &running));
    }
    DO(gcz_begin(&g, 7));
    DO(gcz_advance(&g, 30, &step));
    do
        DO(gcz_reset(&g, &step));
    while (!step.finished);
    for (uint32_t zone = 0; zone < 3; zone++) {
        DO(gcz_compact(&g, zone, &done));
        sum = 31 * sum + done.moved;
    }
    DO(gcz_load(&g, 4, root));
    DO(gcz_set(&g, 4, 1, 4));
    DO(gcz_get(&g, 4, 4, 1, &n));
    sum = 31 * sum + n.number;
    DO(gcz_grays(&g, &grays));
    DO(gcz_dump(&g, &lines));
    gcz_close(&g);
    return 31 * (31 * sum + grays) + lines;
}

int main(void) {
    uint64_t sound = history();
    long all = asked;
    int differ = 0;
    for (long at = 0; at < all; at++) {
        left = at;
        differ += history() != sound;
        left = -1;
    }
    bool good = all > 50 && faults == all && differ == 0;
    if (!good)
        printf("of %ld allocations %d failed, and %d histories answered otherwise\n", all, faults, differ);
    puts(good ? "ok" : "FAILED");
    return !good;
}
