/* A list machine: pairs and numbers of a Lisp, collected in slices while it evaluates.
 *
 * Zone 0 has the lists. The machine's stack has a pinned root for each value. What a number is worth stands in a table
 * beside the heap, by the number of its cell, and goes as a report names the cell.
 * Zone 1 has the closures: an object that leads by a wrapper to the list that it captured, held by a gray slot.
 */
#include "gczone.h"

#include <inttypes.h>
#include <stdio.h>
#include <stdlib.h>

/* Registers: the operands, and the cell that is made. */
enum { LEFT, RIGHT, CELL };
enum { LISTS, CODE };
enum { BOTH_ZONES = 3, ROUNDS = 300, LENGTH = 20, CLOSURES = 8, SLICE = 24, CELLS_BETWEEN = 2000, DEPTH = 64 };

/* On the stack: the empty list, which has no cell. No root has this number. */
static const uint64_t NIL = UINT64_MAX;

struct machine {
    gcz_t heap;
    uint64_t stack[DEPTH]; /* pinned roots */
    size_t depth;
    int64_t *worth; /* by the number of a cell */
    size_t room;
    size_t numbers; /* how many cells have a worth */
    uint64_t let_go;
    uint64_t collections;
    uint64_t made_since;
};

static void must(uint32_t status) {
    if (status == GCZ_DONE)
        return;
    uint8_t text[80];
    gcz_status_text(status, text, sizeof text);
    fprintf(stderr, "lists: %s\n", (char *)text);
    exit(1);
}

/* What the report names is no number any more. A pair has no worth, which INT64_MIN says. */
static void hear(struct machine *machine) {
    gcz_report_t report;
    must(gcz_report(&machine->heap, &report));
    if (report.kind != GCZ_SWEPT)
        return;
    for (size_t index = 0; index < report.count; index++) {
        gcz_name_t name;
        must(gcz_report_name(&machine->heap, index, &name));
        if (name.kind != GCZ_CELL || machine->worth[name.number] == INT64_MIN)
            continue;
        machine->worth[name.number] = INT64_MIN;
        machine->numbers--;
        machine->let_go++;
    }
}

static bool step(struct machine *machine, uint64_t limit) {
    gcz_step_t done;
    bool running;
    must(gcz_advance(&machine->heap, limit, &done));
    if (done.report != GCZ_NO_REPORT)
        hear(machine);
    must(gcz_running(&machine->heap, &running));
    return running;
}

static void begin(struct machine *machine) {
    must(gcz_begin(&machine->heap, BOTH_ZONES));
    machine->collections++;
    machine->made_since = 0;
}

/* Makes a cell in the register CELL. Each cell pays for a slice of the collection that runs, if one does. */
static uint64_t make(struct machine *machine, uint32_t compartment, uint32_t fields) {
    gcz_name_t name;
    if (!step(machine, SLICE) && machine->made_since >= CELLS_BETWEEN)
        begin(machine);
    must(gcz_new(&machine->heap, CELL, compartment, fields, &name));
    machine->made_since++;
    if (name.number >= machine->room) {
        machine->room = 2 * (size_t)name.number + 64;
        machine->worth = realloc(machine->worth, machine->room * sizeof *machine->worth);
        if (!machine->worth)
            must(GCZ_NO_MEMORY);
    }
    machine->worth[name.number] = INT64_MIN;
    return name.number;
}

/* A field gets what a register holds, which may be nothing. */
static void set(struct machine *machine, uint32_t reg, uint32_t field, uint32_t from) {
    uint32_t status = gcz_set(&machine->heap, reg, field, from);
    must(status == GCZ_EMPTY ? gcz_clear(&machine->heap, reg, field) : status);
}

static void drop(struct machine *machine, uint32_t reg) {
    must(gcz_drop(&machine->heap, reg));
}

/* Makes a pair of two registers in the register CELL. */
static void pair(struct machine *machine, uint32_t head, uint32_t tail) {
    make(machine, LISTS, 2);
    set(machine, CELL, 0, head);
    set(machine, CELL, 1, tail);
}

/* Pushes what a register holds, and leaves that register empty. */
static void push(struct machine *machine, uint32_t reg) {
    if (machine->depth == DEPTH)
        must(GCZ_NO_MEMORY);
    uint64_t *top = &machine->stack[machine->depth++];
    uint32_t status = gcz_pin(&machine->heap, reg, top);
    if (status == GCZ_EMPTY)
        *top = NIL;
    else
        must(status);
    drop(machine, reg);
}

static void pop(struct machine *machine, uint32_t reg) {
    uint64_t top = machine->stack[--machine->depth];
    if (top == NIL) {
        drop(machine, reg);
        return;
    }
    must(gcz_load(&machine->heap, reg, top));
    must(gcz_unpin(&machine->heap, top));
}

static void push_nil(struct machine *machine) {
    drop(machine, LEFT);
    push(machine, LEFT);
}

static void push_number(struct machine *machine, int64_t worth) {
    uint64_t number = make(machine, LISTS, 0); /* It may move the table. */
    machine->worth[number] = worth;
    machine->numbers++;
    push(machine, CELL);
}

/* The top of the stack is the tail of a pair, and what lies below is its head. */
static void cons(struct machine *machine) {
    pop(machine, RIGHT);
    pop(machine, LEFT);
    pair(machine, LEFT, RIGHT);
    drop(machine, LEFT);
    drop(machine, RIGHT);
    push(machine, CELL);
}

/* Adds up the list on the stack, and pops it. */
static int64_t sum(struct machine *machine) {
    int64_t total = 0;
    pop(machine, LEFT);
    for (;;) {
        gcz_name_t head, tail;
        uint32_t status = gcz_get(&machine->heap, RIGHT, LEFT, 0, &head);
        if (status == GCZ_EMPTY)
            break;
        must(status);
        total += machine->worth[head.number];
        must(gcz_get(&machine->heap, LEFT, LEFT, 1, &tail));
    }
    drop(machine, RIGHT);
    return total;
}

/* Makes a closure of the list on the stack, and pops it. The closure of that slot before is let go. */
static void capture(struct machine *machine, uint32_t slot) {
    gcz_name_t name;
    pop(machine, LEFT);
    must(gcz_wrap(&machine->heap, RIGHT, LEFT, CODE, &name));
    make(machine, CODE, 1);
    set(machine, CELL, 0, RIGHT);
    must(gcz_hold(&machine->heap, slot, CELL));
    drop(machine, LEFT);
    drop(machine, RIGHT);
    drop(machine, CELL);
}

/* Pushes the list that a closure captured. */
static void enter(struct machine *machine, uint32_t slot) {
    gcz_name_t name;
    must(gcz_expose(&machine->heap, CELL, slot, &name));
    must(gcz_get(&machine->heap, RIGHT, CELL, 0, &name));
    must(gcz_unwrap(&machine->heap, LEFT, RIGHT, &name));
    drop(machine, RIGHT);
    drop(machine, CELL);
    push(machine, LEFT);
}

static void push_list(struct machine *machine, int64_t first) {
    for (int64_t worth = first; worth < first + LENGTH; worth++)
        push_number(machine, worth);
    push_nil(machine);
    for (int count = 0; count < LENGTH; count++)
        cons(machine);
}

static int64_t evaluate(struct machine *machine) {
    int64_t total = 0;
    for (int round = 0; round < ROUNDS; round++) {
        push_list(machine, round);
        capture(machine, (uint32_t)(round % CLOSURES));
        push_list(machine, -round);
        total += sum(machine);
        enter(machine, (uint32_t)(round / 2 % CLOSURES));
        total += sum(machine);
    }
    return total;
}

static void collect(struct machine *machine) {
    while (step(machine, UINT64_MAX))
        ;
    begin(machine);
    while (step(machine, UINT64_MAX))
        ;
}

static void print(const struct machine *machine, const char *when) {
    printf("%s: %zu numbers, %" PRIu64 " let go by %" PRIu64 " collections\n", when, machine->numbers, machine->let_go,
           machine->collections);
}

int main(void) {
    struct machine machine = {.heap = GCZ_CLOSED_HANDLE};
    gcz_name_t name;
    must(gcz_open(&machine.heap));
    must(gcz_zone(&machine.heap, &name));
    must(gcz_zone(&machine.heap, &name));
    must(gcz_comp(&machine.heap, 0, &name));
    must(gcz_comp(&machine.heap, 1, &name));
    printf("total %" PRId64 "\n", evaluate(&machine));
    print(&machine, "evaluated");
    collect(&machine);
    print(&machine, "with closures");
    for (uint32_t slot = 0; slot < CLOSURES; slot++)
        must(gcz_release(&machine.heap, slot));
    collect(&machine);
    print(&machine, "without");
    free(machine.worth);
    gcz_close(&machine.heap);
    return 0;
}
