/* Does one call of the library a number of times: calls CALL COUNT. bench/calls.py measures it.
 *
 * With OWN it is linked with a library that has one export more, which does a command of the session in a loop of its
 * own: what is left of a call then is the session's own work. */
#include <stdio.h>
#include <stdlib.h>
#include <string.h>

#include "gczone.h"

static gcz_t heap = GCZ_CLOSED_HANDLE;
static gcz_name_t name;
static gcz_step_t step;
static bool running;
static uint64_t root, pinned; /* the root that a call gives, and the next one to unpin */

#ifdef OWN
uint32_t gcz_repeat(gcz_t *gcz, uint32_t which, uint64_t times);

static uint32_t which_of(const char *word) {
    static const char *const words[] = {"gcz_copy", "gcz_get", "gcz_set", "gcz_new", "refused"};
    for (uint32_t i = 0; i < sizeof words / sizeof *words; i++)
        if (strcmp(words[i], word) == 0)
            return i;
    return 99;
}
#endif

static uint32_t nothing(void) { return GCZ_DONE; }
static uint32_t is_running(void) { return gcz_running(&heap, &running); }
static uint32_t beyond(void) { return gcz_copy(&heap, 16, 0); }
static uint32_t copy(void) { return gcz_copy(&heap, 1, 0); }
static uint32_t get(void) { return gcz_get(&heap, 1, 0, 0, &name); }
static uint32_t set(void) { return gcz_set(&heap, 0, 0, 2); }
static uint32_t new(void) { return gcz_new(&heap, 1, 0, 1, &name); }
static uint32_t refused(void) { return gcz_get(&heap, 1, 9, 0, &name); }
static uint32_t pin(void) { return gcz_pin(&heap, 0, &root); }
static uint32_t load(void) { return gcz_load(&heap, 1, root); }
static uint32_t unpin(void) { return gcz_unpin(&heap, pinned++); }
static uint32_t idle_step(void) { return gcz_advance(&heap, 1, &step); }

static const struct {
    const char *word;
    uint32_t (*does)(void);
    uint32_t status;
    uint32_t (*before)(void); /* what is done as often before */
} calls[] = {
    {"nothing", nothing, GCZ_DONE, NULL},  {"gcz_running", is_running, GCZ_DONE, NULL},
    {"gcz_copy", copy, GCZ_DONE, NULL},    {"gcz_get", get, GCZ_DONE, NULL},
    {"gcz_set", set, GCZ_DONE, NULL},      {"gcz_new", new, GCZ_DONE, NULL},
    {"refused", refused, GCZ_EMPTY, NULL}, {"out-of-range", beyond, GCZ_BAD_REGISTER, NULL},
    {"gcz_pin", pin, GCZ_DONE, NULL},      {"gcz_load", load, GCZ_DONE, NULL},
    {"gcz_unpin", unpin, GCZ_DONE, pin},   {"gcz_advance", idle_step, GCZ_DONE, NULL},
};

static uint32_t prepare(void) {
    uint32_t status = gcz_open(&heap);
    status |= gcz_zone(&heap, &name);
    status |= gcz_comp(&heap, 0, &name);
    status |= gcz_new(&heap, 0, 0, 1, &name);
    status |= gcz_new(&heap, 2, 0, 1, &name);
    status |= gcz_set(&heap, 0, 0, 2);
    status |= pin();
    return status;
}

int main(int count, char **words) {
    if (count != 3 || prepare() != GCZ_DONE)
        return 2;
    for (size_t i = 0; i < sizeof calls / sizeof *calls; i++) {
        if (strcmp(calls[i].word, words[1]) != 0)
            continue;
#ifdef OWN
        return gcz_repeat(&heap, which_of(words[1]), strtoull(words[2], NULL, 10)) != GCZ_DONE;
#endif
        long times = strtol(words[2], NULL, 10);
        for (long left = calls[i].before ? times : 0; left > 0; left--)
            if (calls[i].before() != GCZ_DONE)
                return 1;
        for (long left = times; left > 0; left--)
            if (calls[i].does() != calls[i].status)
                return 1;
        gcz_close(&heap);
        return 0;
    }
    return 2;
}
