/* gczone: a zone-by-zone incremental collector with black and gray, for C and C++.
 *
 * Nothing checks these points, and all that is promised of the library rests on them. A caller owes them:
 *
 *  1. Each pointer is aligned, not null, and leads to a live object of its type.
 *  2. The pointers of one call lead to objects that do not overlap.
 *  3. A gcz_t is GCZ_CLOSED_HANDLE, or as these functions left it. Nothing else writes it.
 *  4. A gcz_t may be moved, and then the old one is not used: of several copies only one is used.
 *  5. A handle is in one call at a time. It may go from thread to thread, if a lock, a join or a
 *     sequentially consistent atomic orders the calls.
 *  6. No call comes from a signal handler, or from the forked child of a process with threads.
 *  7. malloc, realloc and free belong to one allocator, and a block is aligned as C asks.
 *  8. The room of gcz_status_text has at least the size that is given.
 *  9. The header and the library are of one interface: gcz_interface() == GCZ_INTERFACE.
 * 10. A handle that is not closed in the end leaks what it holds, and nothing worse.
 *
 * All numbers are tested: one that is out of range has a status of its own, and nothing is done.
 * docs/EMBEDDING.md tells what each call does.
 */
#ifndef GCZONE_H
#define GCZONE_H

#include <stdbool.h>
#include <stddef.h>
#include <stdint.h>

#ifdef __cplusplus
extern "C" {
#endif

#define GCZ_INTERFACE 1u

#if defined(__GNUC__) || defined(__clang__)
#define GCZ_CALL __attribute__((nonnull, warn_unused_result))
#define GCZ_NONNULL __attribute__((nonnull))
#else
#define GCZ_CALL
#define GCZ_NONNULL
#endif

/* A handle. All zero is a closed one: gcz_t heap = GCZ_CLOSED_HANDLE; */
typedef struct gcz {
    bool is_open;
    struct {
        uint8_t *at;
    } slot;
} gcz_t;
#define GCZ_CLOSED_HANDLE {0, {0}}

/* How a call ended. Numbers that are left out, as 23 is, are kept for later interfaces. */
enum gcz_status {
    GCZ_DONE = 0,
    GCZ_CLOSED = 1,           /* the handle is closed; nothing was done */
    GCZ_OPEN = 2,             /* the handle is open already, and stays as it is */
    GCZ_NO_MEMORY = 3,        /* malloc or realloc failed; the graph is as it was */
    GCZ_HEAP_FULL = 4,        /* 4,294,967,295 cells were made; nothing was done */
    GCZ_NONE = 5,             /* there is no such entry, name or report */
    /* A number is out of range, and nothing was done. */
    GCZ_BAD_REGISTER = 8,     /* above 15 */
    GCZ_BAD_ZONE = 9,         /* above 63 */
    GCZ_BAD_COMPARTMENT = 10, /* above 255 */
    GCZ_BAD_SLOT = 11,        /* above 63 */
    GCZ_BAD_FIELD = 12,       /* above 7 */
    GCZ_BAD_FIELD_COUNT = 13, /* above 8 */
    GCZ_BAD_KIND = 14,        /* of a name: neither GCZ_NOTHING nor GCZ_CELL nor GCZ_WRAPPER */
    GCZ_BAD_WEAK_SLOT = 15,   /* above 63 */
    /* The command is refused, and nothing was done. */
    GCZ_FULL = 16,            /* 64 zones, or 256 compartments, are there */
    GCZ_NO_ZONE = 17,         /* a zone is not made, or no zone is given */
    GCZ_NO_COMPARTMENT = 18,  /* the compartment is not made */
    GCZ_EMPTY = 19,           /* a register that the command reads is empty */
    GCZ_KIND = 20,            /* a cell is of another kind than the command wants */
    GCZ_NO_FIELD = 21,        /* the object has no such field */
    GCZ_CROSS = 22,           /* two cells are of different compartments */
    GCZ_RUNNING = 24,         /* a collection runs */
    GCZ_IDLE = 25,            /* no collection runs: no call of this interface returns it */
    GCZ_MARKING = 26,         /* a zone is being prepared or marking, so colours are not settled */
    GCZ_NOT_PINNED = 27       /* no cell is pinned under this number */
};

/* What a name is of. */
enum gcz_kind {
    GCZ_NOTHING = 0,
    GCZ_CELL = 1,
    GCZ_WRAPPER = 2,
    GCZ_ZONE = 3,
    GCZ_COMPARTMENT = 4
};

/* What a command answers, or a name of a list. A cell, a zone or a compartment has its number; a wrapper has the
 * number of its target, and the compartment that it stands in. A null is GCZ_NOTHING. */
typedef struct gcz_name {
    uint64_t number;
    uint32_t kind;
    uint32_t compartment;
} gcz_name_t;

/* What a step reports. */
enum gcz_report_kind {
    GCZ_NO_REPORT = 0,
    GCZ_GROUPS = 1,  /* the sweep groups are formed: sets of zones, in the order in which they end */
    GCZ_ENDED = 2,   /* the marking of a group ended: its zones, and its gray names */
    GCZ_SWEPT = 3,   /* an arena was swept: its number, and the names of what was freed */
    GCZ_STARTED = 4, /* the zones are prepared, and marking begins with the heap as it is */
    GCZ_STOPPED = 5  /* the collection was given up: its zones that were still being prepared or marking */
};

/* What a step did: how many units, the kind of its report, and whether the collection is over. */
typedef struct gcz_step {
    uint64_t units;
    uint32_t report;
    bool finished;
} gcz_step_t;

/* A report: its zones, a bit for each, and how many groups or names it lists. */
typedef struct gcz_report {
    uint64_t zones;
    size_t count;
    uint32_t kind;
    uint32_t arena;
} gcz_report_t;

/* How much a heap holds. The next object or map that is made has the number `objects`. */
typedef struct gcz_counts {
    uint64_t cells;   /* that are there, wrappers among them */
    uint64_t objects; /* objects and maps that were ever made */
    uint64_t entries; /* of weak maps */
    uint64_t bytes;   /* of the arenas: 64 cells of 40 bytes each, and 32 beside them */
    uint32_t arenas;  /* of 64 slots each, with those that were given up; none is given back but by gcz_close */
} gcz_counts_t;

/* What a compaction did: how many cells moved, and how many arenas were given up. */
typedef struct gcz_compacted {
    uint64_t moved;
    uint32_t given_up;
} gcz_compacted_t;

/* What a line of a dump is. */
enum gcz_line_kind {
    GCZ_LINE_END = 0,  /* the last one */
    GCZ_LINE_CELL = 1, /* a cell that is there: its name, and whether it is black or gray */
    GCZ_LINE_EDGE = 2, /* a field: the number of the object, and the name of what it holds */
    GCZ_LINE_ENTRY = 3 /* an entry of a weak map: the number of the map, the name of the key, and the value */
};

typedef struct gcz_line {
    uint64_t owner;
    gcz_name_t name;
    gcz_name_t value;
    uint32_t kind;
    bool black;
} gcz_line_t;

uint32_t gcz_interface(void);

/* Writes a status in plain words, cut to the room, with a zero byte behind. Returns the length of the whole text. */
GCZ_NONNULL size_t gcz_status_text(uint32_t status, uint8_t *room, size_t size);

/* Opens a handle that is closed, with an empty heap. Closing one that is closed does nothing. */
GCZ_CALL uint32_t gcz_open(gcz_t *gcz);
GCZ_NONNULL void gcz_close(gcz_t *gcz);

/* Commands, also between two steps of a collection. The first number is what the command writes. */
GCZ_CALL uint32_t gcz_zone(gcz_t *gcz, gcz_name_t *answer);
GCZ_CALL uint32_t gcz_comp(gcz_t *gcz, uint32_t zone, gcz_name_t *answer);
GCZ_CALL uint32_t gcz_new(gcz_t *gcz, uint32_t reg, uint32_t comp, uint32_t fields, gcz_name_t *answer);
GCZ_CALL uint32_t gcz_map(gcz_t *gcz, uint32_t reg, uint32_t comp, gcz_name_t *answer);
GCZ_CALL uint32_t gcz_get(gcz_t *gcz, uint32_t reg, uint32_t from, uint32_t field, gcz_name_t *answer);
GCZ_CALL uint32_t gcz_set(gcz_t *gcz, uint32_t reg, uint32_t field, uint32_t from);
GCZ_CALL uint32_t gcz_clear(gcz_t *gcz, uint32_t reg, uint32_t field);
GCZ_CALL uint32_t gcz_copy(gcz_t *gcz, uint32_t reg, uint32_t from);
GCZ_CALL uint32_t gcz_drop(gcz_t *gcz, uint32_t reg);
GCZ_CALL uint32_t gcz_wrap(gcz_t *gcz, uint32_t reg, uint32_t from, uint32_t comp, gcz_name_t *answer);
GCZ_CALL uint32_t gcz_unwrap(gcz_t *gcz, uint32_t reg, uint32_t from, gcz_name_t *answer);
GCZ_CALL uint32_t gcz_hold(gcz_t *gcz, uint32_t slot, uint32_t reg);
GCZ_CALL uint32_t gcz_release(gcz_t *gcz, uint32_t slot);
GCZ_CALL uint32_t gcz_expose(gcz_t *gcz, uint32_t reg, uint32_t slot, gcz_name_t *answer);
GCZ_CALL uint32_t gcz_put(gcz_t *gcz, uint32_t map, uint32_t key, uint32_t value);
GCZ_CALL uint32_t gcz_del(gcz_t *gcz, uint32_t map, uint32_t key);
GCZ_CALL uint32_t gcz_find(gcz_t *gcz, uint32_t reg, uint32_t map, uint32_t key, gcz_name_t *answer);

/* Weak slots, which name cells and keep none, and cells that are watched until they die: also between two steps. */
GCZ_CALL uint32_t gcz_weaken(gcz_t *gcz, uint32_t slot, uint32_t reg);
GCZ_CALL uint32_t gcz_deref(gcz_t *gcz, uint32_t reg, uint32_t slot, gcz_name_t *answer);
GCZ_CALL uint32_t gcz_watch(gcz_t *gcz, uint32_t reg);
GCZ_CALL uint32_t gcz_unwatch(gcz_t *gcz, uint32_t reg);

/* Pinned roots: black roots beside the registers, as many as there is memory for, by numbers that gcz_pin gives. A new
 * one holds what a register holds; a register holds what one holds; one holds nothing any more, and its number may be
 * given again. Only gcz_pin takes memory. Also between two steps. */
GCZ_CALL uint32_t gcz_pin(gcz_t *gcz, uint32_t reg, uint64_t *root);
GCZ_CALL uint32_t gcz_load(gcz_t *gcz, uint32_t reg, uint64_t root);
GCZ_CALL uint32_t gcz_unpin(gcz_t *gcz, uint64_t root);

/* Moves the cells of a zone together, while no collection runs, and gives up the arenas that this empties. */
GCZ_CALL uint32_t gcz_compact(gcz_t *gcz, uint32_t zone, gcz_compacted_t *done);

/* A collection of the zones whose bits are set, step by step: each of at most limit units. */
GCZ_CALL uint32_t gcz_begin(gcz_t *gcz, uint64_t zones);
GCZ_CALL uint32_t gcz_advance(gcz_t *gcz, uint64_t limit, gcz_step_t *done);
GCZ_CALL uint32_t gcz_running(gcz_t *gcz, bool *running);

/* Gives the collection up, step by step: each takes in an arena that is out, and the last one does the rest. */
GCZ_CALL uint32_t gcz_reset(gcz_t *gcz, gcz_step_t *done);

/* A bound on the units that the collection that runs may still take while no command comes; 0 exactly when none runs. */
GCZ_CALL uint32_t gcz_units_left(gcz_t *gcz, uint64_t *units);

/* How many cells, objects and maps, weak entries, bytes and arenas there are. */
GCZ_CALL uint32_t gcz_counts(gcz_t *gcz, gcz_counts_t *counts);

/* The last report, until the next one, and what it lists by its place; of GCZ_ENDED also the watched cells that died
 * with the group, GCZ_NONE behind the last of them. */
GCZ_CALL uint32_t gcz_report(gcz_t *gcz, gcz_report_t *told);
GCZ_CALL uint32_t gcz_report_name(gcz_t *gcz, size_t index, gcz_name_t *name);
GCZ_CALL uint32_t gcz_report_lost(gcz_t *gcz, size_t index, gcz_name_t *name);
GCZ_CALL uint32_t gcz_report_group(gcz_t *gcz, size_t index, uint64_t *zones);

/* The gray names, ascending: lists them, and then each by its place, until the next list. */
GCZ_CALL uint32_t gcz_grays(gcz_t *gcz, size_t *count);
GCZ_CALL uint32_t gcz_gray(gcz_t *gcz, size_t index, gcz_name_t *name);

/* Writes over a name the first gray name behind it, and over GCZ_NOTHING the first of all; GCZ_NONE if there is none. It
 * takes no memory, and walks over the whole heap: for a few names. */
GCZ_CALL uint32_t gcz_next_gray(gcz_t *gcz, gcz_name_t *name);

/* A dump of the heap: lists its lines, and then each by its place, until the next dump. */
GCZ_CALL uint32_t gcz_dump(gcz_t *gcz, size_t *count);
GCZ_CALL uint32_t gcz_dump_line(gcz_t *gcz, size_t index, gcz_line_t *line);

#ifdef __cplusplus
}
#endif
#endif
