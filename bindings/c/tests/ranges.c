/* Each export with each number out of range, at an open and at a closed handle: its own status, and nothing is done. */
#include "gczone.h"

#include <stdio.h>
#include <stdlib.h>
#include <string.h>

static int failures;

#define WANT(call, status)                                                                              \
    do {                                                                                                \
        uint32_t got_ = (call);                                                                         \
        if (got_ != (uint32_t)(status)) {                                                               \
            printf("line %d: %s returned %u, not %u\n", __LINE__, #call, (unsigned)got_, (unsigned)(status)); \
            failures++;                                                                                 \
        }                                                                                               \
    } while (0)

/* Numbers that no argument takes, and the first ones above each limit. */
static const uint32_t BEYOND[] = {UINT32_MAX, UINT32_MAX - 1, UINT32_C(1) << 31, UINT32_C(1) << 16, 65535, 65536 + 1,
                                  257, 256 + 15, 512};
enum { BEYOND_COUNT = sizeof BEYOND / sizeof *BEYOND };

static const gcz_name_t UNTOLD = {99, 98, 97};

/* The answer of a call that does nothing stays as it was. */
static void want_untold(const gcz_name_t *answer, int line) {
    if (memcmp(answer, &UNTOLD, sizeof UNTOLD) != 0) {
        printf("line %d: an answer was written\n", line);
        failures++;
    }
}
#define REFUSED(call, status)                \
    do {                                     \
        gcz_name_t n = UNTOLD;               \
        WANT(call, status);                  \
        want_untold(&n, __LINE__);           \
    } while (0)

static void registers(gcz_t *g, uint32_t bad) {
    REFUSED(gcz_new(g, bad, 0, 1, &n), GCZ_BAD_REGISTER);
    REFUSED(gcz_map(g, bad, 0, &n), GCZ_BAD_REGISTER);
    REFUSED(gcz_get(g, bad, 0, 0, &n), GCZ_BAD_REGISTER);
    REFUSED(gcz_get(g, 0, bad, 0, &n), GCZ_BAD_REGISTER);
    WANT(gcz_set(g, bad, 0, 0), GCZ_BAD_REGISTER);
    WANT(gcz_set(g, 0, 0, bad), GCZ_BAD_REGISTER);
    WANT(gcz_clear(g, bad, 0), GCZ_BAD_REGISTER);
    WANT(gcz_copy(g, bad, 0), GCZ_BAD_REGISTER);
    WANT(gcz_copy(g, 0, bad), GCZ_BAD_REGISTER);
    WANT(gcz_drop(g, bad), GCZ_BAD_REGISTER);
    REFUSED(gcz_wrap(g, bad, 0, 0, &n), GCZ_BAD_REGISTER);
    REFUSED(gcz_wrap(g, 0, bad, 0, &n), GCZ_BAD_REGISTER);
    REFUSED(gcz_unwrap(g, bad, 0, &n), GCZ_BAD_REGISTER);
    REFUSED(gcz_unwrap(g, 0, bad, &n), GCZ_BAD_REGISTER);
    WANT(gcz_hold(g, 0, bad), GCZ_BAD_REGISTER);
    REFUSED(gcz_expose(g, bad, 0, &n), GCZ_BAD_REGISTER);
    WANT(gcz_put(g, bad, 0, 0), GCZ_BAD_REGISTER);
    WANT(gcz_put(g, 0, bad, 0), GCZ_BAD_REGISTER);
    WANT(gcz_put(g, 0, 0, bad), GCZ_BAD_REGISTER);
    WANT(gcz_del(g, bad, 0), GCZ_BAD_REGISTER);
    WANT(gcz_del(g, 0, bad), GCZ_BAD_REGISTER);
    REFUSED(gcz_find(g, bad, 0, 0, &n), GCZ_BAD_REGISTER);
    REFUSED(gcz_find(g, 0, bad, 0, &n), GCZ_BAD_REGISTER);
    REFUSED(gcz_find(g, 0, 0, bad, &n), GCZ_BAD_REGISTER);
    WANT(gcz_weaken(g, 0, bad), GCZ_BAD_REGISTER);
    REFUSED(gcz_deref(g, bad, 0, &n), GCZ_BAD_REGISTER);
    WANT(gcz_watch(g, bad), GCZ_BAD_REGISTER);
    WANT(gcz_unwatch(g, bad), GCZ_BAD_REGISTER);
    uint64_t root = 99;
    WANT(gcz_pin(g, bad, &root), GCZ_BAD_REGISTER);
    WANT(gcz_load(g, bad, 0), GCZ_BAD_REGISTER);
    WANT(root == 99, 1);
}

static void slots(gcz_t *g, uint32_t bad) {
    WANT(gcz_hold(g, bad, 0), GCZ_BAD_SLOT);
    WANT(gcz_release(g, bad), GCZ_BAD_SLOT);
    REFUSED(gcz_expose(g, 0, bad, &n), GCZ_BAD_SLOT);
    WANT(gcz_weaken(g, bad, 0), GCZ_BAD_WEAK_SLOT);
    REFUSED(gcz_deref(g, 0, bad, &n), GCZ_BAD_WEAK_SLOT);
}

static void zones(gcz_t *g, uint32_t bad) {
    gcz_compacted_t done = {99, 98};
    REFUSED(gcz_comp(g, bad, &n), GCZ_BAD_ZONE);
    WANT(gcz_compact(g, bad, &done), GCZ_BAD_ZONE);
    WANT(done.moved == 99 && done.given_up == 98, 1);
}

static void compartments(gcz_t *g, uint32_t bad) {
    REFUSED(gcz_new(g, 0, bad, 1, &n), GCZ_BAD_COMPARTMENT);
    REFUSED(gcz_map(g, 0, bad, &n), GCZ_BAD_COMPARTMENT);
    REFUSED(gcz_wrap(g, 0, 0, bad, &n), GCZ_BAD_COMPARTMENT);
}

static void fields(gcz_t *g, uint32_t bad) {
    REFUSED(gcz_get(g, 0, 0, bad, &n), GCZ_BAD_FIELD);
    WANT(gcz_set(g, 0, bad, 0), GCZ_BAD_FIELD);
    WANT(gcz_clear(g, 0, bad), GCZ_BAD_FIELD);
}

/* No cell is pinned under this number or one above it. */
static void not_pinned(gcz_t *g, uint64_t first) {
    const uint64_t far[] = {first, first + 1, first + 16, 65535, 65536, UINT32_MAX, UINT64_C(1) << 32, UINT64_C(1) << 59,
                            UINT64_C(1) << 63, UINT64_MAX - 16, UINT64_MAX - 15, UINT64_MAX - 1, UINT64_MAX};
    for (size_t i = 0; i < sizeof far / sizeof *far; i++) {
        WANT(gcz_load(g, 0, far[i]), GCZ_NOT_PINNED);
        WANT(gcz_unpin(g, far[i]), GCZ_NOT_PINNED);
    }
}

/* The next gray name behind each kind of name: with this status, nothing is written. */
static void next_grays(gcz_t *g, uint32_t status) {
    const gcz_name_t names[] = {{0, GCZ_NOTHING, 0}, {UINT64_MAX, GCZ_NOTHING, UINT32_MAX}, {0, GCZ_CELL, 0},
                                {UINT64_MAX, GCZ_CELL, UINT32_MAX}, {0, GCZ_WRAPPER, 0},
                                {UINT64_MAX, GCZ_WRAPPER, 255}};
    for (size_t i = 0; i < sizeof names / sizeof *names; i++) {
        gcz_name_t name = names[i];
        WANT(gcz_next_gray(g, &name), status);
        WANT(memcmp(&name, &names[i], sizeof name) == 0, 1);
    }
}

/* Behind what is no name. */
static void names_beyond(gcz_t *g, uint32_t bad) {
    gcz_name_t kind = {0, bad, 0}, wrapper = {0, GCZ_WRAPPER, bad};
    if (bad > GCZ_WRAPPER)
        WANT(gcz_next_gray(g, &kind), GCZ_BAD_KIND);
    if (bad > 255)
        WANT(gcz_next_gray(g, &wrapper), GCZ_BAD_COMPARTMENT);
    WANT(kind.number == 0 && kind.kind == bad && kind.compartment == 0, 1);
    WANT(bad <= 255 || (wrapper.number == 0 && wrapper.kind == GCZ_WRAPPER && wrapper.compartment == bad), 1);
}

static void all_beyond(gcz_t *g) {
    for (int i = 0; i < BEYOND_COUNT; i++) {
        registers(g, BEYOND[i]);
        slots(g, BEYOND[i]);
        zones(g, BEYOND[i]);
        compartments(g, BEYOND[i]);
        fields(g, BEYOND[i]);
        REFUSED(gcz_new(g, 0, 0, BEYOND[i], &n), GCZ_BAD_FIELD_COUNT);
        names_beyond(g, BEYOND[i]);
    }
    for (uint32_t bad = 16; bad < 300; bad++)
        registers(g, bad);
    for (uint32_t bad = 64; bad < 300; bad++) {
        slots(g, bad);
        zones(g, bad);
    }
    for (uint32_t bad = 256; bad < 600; bad++)
        compartments(g, bad);
    for (uint32_t bad = 8; bad < 300; bad++)
        fields(g, bad);
    for (uint32_t bad = 0; bad < 600; bad++)
        names_beyond(g, bad);
    for (uint32_t bad = 9; bad < 300; bad++)
        REFUSED(gcz_new(g, 0, 0, bad, &n), GCZ_BAD_FIELD_COUNT);
}

/* Calls at a closed handle. */
static void all_closed(gcz_t *g) {
    gcz_step_t step = {99, 98, true};
    gcz_report_t report = {99, 98, 97, 96};
    gcz_counts_t counts = {99, 98, 97, 96, 95};
    gcz_line_t line = {.owner = 99};
    gcz_compacted_t done = {99, 98};
    size_t count = 99;
    uint64_t bits = 99, root = 99, units = 99;
    bool running = true;
    REFUSED(gcz_zone(g, &n), GCZ_CLOSED);
    REFUSED(gcz_comp(g, 0, &n), GCZ_CLOSED);
    REFUSED(gcz_new(g, 0, 0, 1, &n), GCZ_CLOSED);
    REFUSED(gcz_map(g, 0, 0, &n), GCZ_CLOSED);
    REFUSED(gcz_get(g, 0, 0, 0, &n), GCZ_CLOSED);
    WANT(gcz_set(g, 0, 0, 0), GCZ_CLOSED);
    WANT(gcz_clear(g, 0, 0), GCZ_CLOSED);
    WANT(gcz_copy(g, 0, 0), GCZ_CLOSED);
    WANT(gcz_drop(g, 0), GCZ_CLOSED);
    REFUSED(gcz_wrap(g, 0, 0, 0, &n), GCZ_CLOSED);
    REFUSED(gcz_unwrap(g, 0, 0, &n), GCZ_CLOSED);
    WANT(gcz_hold(g, 0, 0), GCZ_CLOSED);
    WANT(gcz_release(g, 0), GCZ_CLOSED);
    REFUSED(gcz_expose(g, 0, 0, &n), GCZ_CLOSED);
    WANT(gcz_put(g, 0, 0, 0), GCZ_CLOSED);
    WANT(gcz_del(g, 0, 0), GCZ_CLOSED);
    REFUSED(gcz_find(g, 0, 0, 0, &n), GCZ_CLOSED);
    WANT(gcz_weaken(g, 0, 0), GCZ_CLOSED);
    REFUSED(gcz_deref(g, 0, 0, &n), GCZ_CLOSED);
    WANT(gcz_watch(g, 0), GCZ_CLOSED);
    WANT(gcz_unwatch(g, 0), GCZ_CLOSED);
    WANT(gcz_pin(g, 0, &root), GCZ_CLOSED);
    WANT(gcz_load(g, 0, 0), GCZ_CLOSED);
    WANT(gcz_unpin(g, 0), GCZ_CLOSED);
    WANT(gcz_compact(g, 0, &done), GCZ_CLOSED);
    WANT(gcz_begin(g, 1), GCZ_CLOSED);
    WANT(gcz_advance(g, 1, &step), GCZ_CLOSED);
    WANT(gcz_reset(g, &step), GCZ_CLOSED);
    WANT(gcz_running(g, &running), GCZ_CLOSED);
    WANT(gcz_units_left(g, &units), GCZ_CLOSED);
    WANT(gcz_counts(g, &counts), GCZ_CLOSED);
    WANT(gcz_report(g, &report), GCZ_CLOSED);
    REFUSED(gcz_report_name(g, 0, &n), GCZ_CLOSED);
    REFUSED(gcz_report_lost(g, 0, &n), GCZ_CLOSED);
    WANT(gcz_report_group(g, 0, &bits), GCZ_CLOSED);
    WANT(gcz_grays(g, &count), GCZ_CLOSED);
    REFUSED(gcz_gray(g, 0, &n), GCZ_CLOSED);
    next_grays(g, GCZ_CLOSED);
    WANT(gcz_dump(g, &count), GCZ_CLOSED);
    WANT(gcz_dump_line(g, 0, &line), GCZ_CLOSED);
    WANT(step.units == 99 && step.finished && report.count == 98 && line.owner == 99 && count == 99 && bits == 99
             && running && counts.cells == 99 && done.moved == 99 && done.given_up == 98 && root == 99 && units == 99, 1);
}

/* Places of lists beyond their ends. */
static void beyond_lists(gcz_t *g, size_t names, size_t groups, size_t lines) {
    const size_t far[] = {0, 1, 63, 64, SIZE_MAX / 2, SIZE_MAX - 1, SIZE_MAX};
    for (size_t i = 0; i < sizeof far / sizeof *far; i++) {
        uint64_t bits = 99;
        gcz_line_t line = {.owner = 99};
        if (far[i] >= names) {
            REFUSED(gcz_report_name(g, far[i], &n), GCZ_NONE);
            REFUSED(gcz_report_lost(g, far[i], &n), GCZ_NONE);
            REFUSED(gcz_gray(g, far[i], &n), GCZ_NONE);
        }
        if (far[i] >= groups)
            WANT(gcz_report_group(g, far[i], &bits), GCZ_NONE);
        if (far[i] >= lines)
            WANT(gcz_dump_line(g, far[i], &line), GCZ_NONE);
        WANT(bits == 99 && line.owner == 99, 1);
    }
}

static void limits(gcz_t *g) {
    gcz_name_t n;
    gcz_step_t step;
    gcz_report_t report = {99, 98, 97, 96};
    gcz_counts_t counts;
    gcz_compacted_t done = {99, 98};
    size_t count;
    WANT(gcz_begin(g, 0), GCZ_NO_ZONE);
    WANT(gcz_begin(g, UINT64_MAX), GCZ_NO_ZONE);
    REFUSED(gcz_comp(g, 63, &n), GCZ_NO_ZONE);
    REFUSED(gcz_new(g, 15, 255, 8, &n), GCZ_NO_COMPARTMENT);
    WANT(gcz_report(g, &report), GCZ_NONE);
    WANT(report.count == 98, 1);
    WANT(gcz_advance(g, UINT64_MAX, &step), GCZ_DONE);
    WANT(step.units == 0 && step.report == GCZ_NO_REPORT && !step.finished, 1);
    for (uint32_t zone = 0; zone < 64; zone++) {
        WANT(gcz_zone(g, &n), GCZ_DONE);
        WANT(n.kind == GCZ_ZONE && n.number == zone, 1);
    }
    REFUSED(gcz_zone(g, &n), GCZ_FULL);
    for (uint32_t comp = 0; comp < 256; comp++) {
        WANT(gcz_comp(g, comp % 64, &n), GCZ_DONE);
        WANT(n.kind == GCZ_COMPARTMENT && n.number == comp, 1);
    }
    REFUSED(gcz_comp(g, 0, &n), GCZ_FULL);
    WANT(gcz_new(g, 15, 255, 8, &n), GCZ_DONE);
    WANT(n.kind == GCZ_CELL && n.number == 0, 1);
    WANT(gcz_hold(g, 63, 15), GCZ_DONE);
    WANT(gcz_get(g, 0, 15, 7, &n), GCZ_DONE);
    WANT(n.kind == GCZ_NOTHING, 1);
    REFUSED(gcz_get(g, 0, 1, 7, &n), GCZ_EMPTY);
    WANT(gcz_map(g, 2, 255, &n), GCZ_DONE);
    WANT(gcz_del(g, 2, 15), GCZ_NONE);
    WANT(gcz_put(g, 2, 15, 15), GCZ_DONE);
    WANT(gcz_counts(g, &counts), GCZ_DONE);
    WANT(counts.cells == 2 && counts.objects == 2 && counts.entries == 1 && counts.bytes == 2592
             && counts.arenas == 1, 1);
    WANT(gcz_weaken(g, 63, 15), GCZ_DONE);
    WANT(gcz_deref(g, 3, 63, &n), GCZ_DONE);
    WANT(n.kind == GCZ_CELL && n.number == 0, 1);
    WANT(gcz_deref(g, 3, 62, &n), GCZ_DONE);
    WANT(n.kind == GCZ_NOTHING, 1);
    WANT(gcz_watch(g, 1), GCZ_EMPTY);
    WANT(gcz_unwatch(g, 1), GCZ_EMPTY);
    WANT(gcz_unwatch(g, 15), GCZ_NONE);
    WANT(gcz_watch(g, 15), GCZ_DONE);
    WANT(gcz_unwatch(g, 15), GCZ_DONE);
    WANT(gcz_compact(g, 63, &done), GCZ_DONE);
    WANT(done.moved == 0 && done.given_up == 0, 1);
    WANT(gcz_begin(g, UINT64_MAX), GCZ_DONE);
    WANT(gcz_compact(g, 63, &done), GCZ_RUNNING);
    WANT(gcz_begin(g, 1), GCZ_RUNNING);
    count = 99;
    WANT(gcz_grays(g, &count), GCZ_MARKING);
    WANT(gcz_dump(g, &count), GCZ_MARKING);
    WANT(count == 99, 1);
    next_grays(g, GCZ_MARKING);
    WANT(gcz_advance(g, 0, &step), GCZ_DONE);
    WANT(step.units == 0 && !step.finished, 1);
    WANT(gcz_reset(g, &step), GCZ_DONE);
    WANT(step.units == 1 && step.report == GCZ_STOPPED && step.finished, 1);
    WANT(gcz_report(g, &report), GCZ_DONE);
    WANT(report.kind == GCZ_STOPPED && report.zones == UINT64_MAX && report.count == 0, 1);
    WANT(gcz_reset(g, &step), GCZ_DONE);
    WANT(step.units == 0 && step.report == GCZ_NO_REPORT && !step.finished, 1);
    WANT(gcz_begin(g, UINT64_MAX), GCZ_DONE);
    do
        WANT(gcz_advance(g, UINT64_MAX, &step), GCZ_DONE);
    while (!step.finished);
}

/* The numbers of the cells that a collection of all zones frees, added up, each plus one. At each step no more units
 * are left than the bound on them. */
static uint64_t collect(gcz_t *g) {
    uint64_t freed = 0, units = 0, most = UINT64_MAX, left;
    gcz_step_t step;
    WANT(gcz_begin(g, UINT64_MAX), GCZ_DONE);
    do {
        gcz_name_t n;
        WANT(gcz_units_left(g, &left), GCZ_DONE);
        if (left < most - units)
            most = units + left;
        WANT(gcz_advance(g, 1, &step), GCZ_DONE);
        units += step.units;
        for (size_t i = 0; step.report == GCZ_SWEPT && gcz_report_name(g, i, &n) == GCZ_DONE; i++)
            freed += n.number + 1;
    } while (!step.finished);
    WANT(units <= most, 1);
    WANT(gcz_units_left(g, &left), GCZ_DONE);
    WANT(left, 0);
    return freed;
}

/* Pinned roots keep their cells in collections and compactions, and no number is given twice at a time. The handle has
 * each zone, and register 15 the cell 0. */
static void pinned(gcz_t *g) {
    enum { PINNED = 1000 };
    static uint64_t roots[PINNED], cells[PINNED];
    static bool held[PINNED];
    gcz_compacted_t done;
    gcz_name_t n;
    uint64_t root = 99, freed = 0;
    WANT(gcz_pin(g, 1, &root), GCZ_EMPTY);
    WANT(root == 99, 1);
    not_pinned(g, 0);
    for (size_t i = 0; i < PINNED; i++) {
        WANT(gcz_new(g, 0, 0, 1, &n), GCZ_DONE);
        cells[i] = n.number;
        WANT(gcz_pin(g, 0, &roots[i]), GCZ_DONE);
        WANT(roots[i] < PINNED && !held[roots[i]], 1);
        held[roots[i]] = true;
    }
    WANT(gcz_drop(g, 0), GCZ_DONE);
    not_pinned(g, PINNED);
    WANT(collect(g), 0);
    for (size_t i = 0; i < PINNED; i++) {
        if (i % 3 == 0)
            continue;
        WANT(gcz_unpin(g, roots[i]), GCZ_DONE);
        WANT(gcz_load(g, 0, roots[i]), GCZ_NOT_PINNED);
        WANT(gcz_unpin(g, roots[i]), GCZ_NOT_PINNED);
        held[roots[i]] = false;
        freed += cells[i] + 1;
    }
    WANT(collect(g), freed);
    WANT(gcz_compact(g, 0, &done), GCZ_DONE);
    WANT(done.moved > 0 && done.given_up > 0, 1);
    for (size_t i = 0; i < PINNED; i++) {
        if (i % 3 == 0) {
            WANT(gcz_load(g, 0, roots[i]), GCZ_DONE);
            WANT(gcz_set(g, 0, 0, 0), GCZ_DONE);
            WANT(gcz_get(g, 1, 0, 0, &n), GCZ_DONE);
            WANT(n.kind == GCZ_CELL && n.number == cells[i], 1);
        } else {
            WANT(gcz_pin(g, 15, &roots[i]), GCZ_DONE);
            WANT(roots[i] < PINNED && !held[roots[i]], 1);
            held[roots[i]] = true;
        }
    }
    for (size_t i = 0; i < PINNED; i++)
        WANT(gcz_unpin(g, roots[i]), GCZ_DONE);
    WANT(gcz_drop(g, 0), GCZ_DONE);
    WANT(gcz_drop(g, 1), GCZ_DONE);
    not_pinned(g, 0);
    WANT(gcz_load(g, 15, 0), GCZ_NOT_PINNED);
    WANT(gcz_get(g, 0, 15, 7, &n), GCZ_DONE);
    freed = 0;
    for (size_t i = 0; i < PINNED; i += 3)
        freed += cells[i] + 1;
    WANT(collect(g), freed);
}

static void texts(void) {
    static const uint32_t none[] = {6, 7, 23, 28, 99, UINT32_MAX};
    uint8_t whole[80], other[80];
    size_t length = gcz_status_text(none[0], whole, sizeof whole);
    for (size_t i = 0; i < sizeof none / sizeof *none; i++)
        WANT(gcz_status_text(none[i], other, sizeof other) == length && memcmp(whole, other, length + 1) == 0, 1);
    for (uint32_t status = 0; status <= GCZ_NOT_PINNED; status++) {
        length = gcz_status_text(status, whole, sizeof whole);
        WANT(length > 0 && length < sizeof whole && strlen((char *)whole) == length, 1);
        for (size_t size = 0; size <= length; size++) {
            memset(other, 'x', sizeof other);
            WANT(gcz_status_text(status, other, size) == length, 1);
            WANT(size == 0 || (memcmp(other, whole, size - 1) == 0 && other[size - 1] == 0), 1);
            WANT(other[size] == 'x', 1);
        }
    }
}

int main(void) {
    gcz_t g = GCZ_CLOSED_HANDLE;
    gcz_name_t n;
    size_t lines;
    WANT(gcz_interface(), GCZ_INTERFACE);
    texts();
    all_closed(&g);
    all_beyond(&g);
    gcz_close(&g);
    WANT(gcz_open(&g), GCZ_DONE);
    WANT(gcz_open(&g), GCZ_OPEN);
    WANT(gcz_dump(&g, &lines), GCZ_DONE);
    all_beyond(&g);
    beyond_lists(&g, 0, 0, lines);
    limits(&g);
    pinned(&g);
    all_beyond(&g);
    gcz_t moved = g;
    memset(&g, 0, sizeof g);
    WANT(gcz_find(&moved, 3, 2, 15, &n), GCZ_DONE);
    WANT(n.kind == GCZ_CELL && n.number == 0, 1);
    gcz_close(&moved);
    gcz_close(&moved);
    all_closed(&moved);
    puts(failures ? "FAILED" : "ok");
    return failures > 0;
}
