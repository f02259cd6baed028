/* Answers a trace of docs/TRACE.md by calls of the library, and writes what `gczone run` writes.
 *
 *     replay [--pin] < TRACE
 *
 * With --pin the registers from r8 on are pinned roots: copy to one pins, copy from one loads, and drop unpins.
 *
 * Exit status: 0 if each line was answered, 3 for a line that is no command, 6 if there is no memory.
 */
#include "gczone.h"

#include <inttypes.h>
#include <stdio.h>
#include <stdlib.h>
#include <string.h>

enum { MOST_WORDS = 80, BAD_LINE = 3, OUT_OF_MEMORY = 6, REGISTERS = 16 };

static const char *const REFUSALS[] = {
    [GCZ_FULL] = "full",
    [GCZ_NO_ZONE] = "no-zone",
    [GCZ_NO_COMPARTMENT] = "no-comp",
    [GCZ_EMPTY] = "empty",
    [GCZ_KIND] = "kind",
    [GCZ_NO_FIELD] = "no-field",
    [GCZ_CROSS] = "cross",
    [GCZ_RUNNING] = "running",
    [GCZ_IDLE] = "idle",
    [GCZ_MARKING] = "marking",
};

static void print_name(gcz_name_t name) {
    if (name.kind == GCZ_WRAPPER)
        printf("%" PRIu32 ":", name.compartment);
    printf("%" PRIu64, name.number);
}

/* Ends the program where a call can go no further. */
static void must(uint32_t status) {
    if (status == GCZ_DONE)
        return;
    char text[80];
    gcz_status_text(status, (uint8_t *)text, sizeof text);
    fprintf(stderr, "replay: %s\n", text);
    exit(status == GCZ_NO_MEMORY ? OUT_OF_MEMORY : 1);
}

/* Writes the names of a list, or a dash. */
static void print_names(gcz_t *gcz, size_t count, uint32_t (*get)(gcz_t *, size_t, gcz_name_t *)) {
    if (count == 0)
        printf(" -");
    for (size_t index = 0; index < count; index++) {
        gcz_name_t name;
        must(get(gcz, index, &name));
        putchar(' ');
        print_name(name);
    }
}

static void print_zones(uint64_t zones) {
    for (int zone = 0; zone < 64; zone++)
        if (zones >> zone & 1)
            printf(" %d", zone);
}

/* Writes the watched cells that died with the group that ended, on a line of their own, if there are any. */
static void print_lost(gcz_t *gcz) {
    gcz_name_t name;
    for (size_t index = 0; gcz_report_lost(gcz, index, &name) == GCZ_DONE; index++) {
        fputs(index == 0 ? "\ntold " : " ", stdout);
        print_name(name);
    }
}

static void print_report(gcz_t *gcz) {
    gcz_report_t report;
    must(gcz_report(gcz, &report));
    switch (report.kind) {
    case GCZ_STARTED: printf("started"); break;
    case GCZ_GROUPS:
        printf("groups");
        for (size_t index = 0; index < report.count; index++) {
            uint64_t zones;
            must(gcz_report_group(gcz, index, &zones));
            if (index > 0)
                printf(" |");
            print_zones(zones);
        }
        break;
    case GCZ_ENDED:
        printf("ended");
        print_zones(report.zones);
        printf(" gray");
        print_names(gcz, report.count, gcz_report_name);
        print_lost(gcz);
        break;
    case GCZ_STOPPED:
        printf("stopped");
        print_zones(report.zones);
        break;
    default:
        printf("swept %" PRIu32, report.arena);
        print_names(gcz, report.count, gcz_report_name);
    }
    putchar('\n');
}

static bool runs(gcz_t *gcz) {
    bool running;
    must(gcz_running(gcz, &running));
    return running;
}

/* Does units of the collection that runs, and returns how many. */
static uint64_t advance(gcz_t *gcz, uint64_t limit) {
    uint64_t units = 0;
    while (units < limit && runs(gcz)) {
        gcz_step_t step;
        must(gcz_advance(gcz, limit - units, &step));
        units += step.units;
        if (step.report != GCZ_NO_REPORT)
            print_report(gcz);
        if (step.finished)
            puts("done");
    }
    return units;
}

/* Writes a refusal, if the status is one. */
static bool print_refusal(uint32_t status) {
    if (status < GCZ_FULL)
        return false;
    puts(REFUSALS[status]);
    return true;
}

/* Writes the answer to a command. */
static void print_answer(uint32_t status, gcz_name_t answer) {
    if (print_refusal(status))
        return;
    must(status);
    switch (answer.kind) {
    case GCZ_NOTHING: printf("null"); break;
    case GCZ_ZONE: printf("zone "); break;
    case GCZ_COMPARTMENT: printf("comp "); break;
    default: break;
    }
    if (answer.kind != GCZ_NOTHING)
        print_name(answer);
    putchar('\n');
}

static void print_order(uint32_t status) {
    if (print_refusal(status))
        return;
    if (status != GCZ_NONE)
        must(status);
    puts(status == GCZ_NONE ? "absent" : "ok");
}

/* The number of a word such as r7, g3, q5 or 12. */
static uint32_t number_of(const char *word) {
    return (uint32_t)strtoul(word + (*word == 'r' || *word == 'g' || *word == 'q'), NULL, 10);
}

static uint64_t zones_of(char **words, int count) {
    uint64_t zones = 0;
    for (int index = 0; index < count; index++)
        zones |= UINT64_C(1) << number_of(words[index]);
    return zones;
}

/* The registers of the trace that are pinned roots, from this one on; and the root of each, if it holds a cell. */
static uint32_t first_pinned = REGISTERS;
static struct {
    bool holds;
    uint64_t number;
} roots[REGISTERS];

static uint32_t drop(gcz_t *gcz, uint32_t reg) {
    if (reg < first_pinned)
        return gcz_drop(gcz, reg);
    if (!roots[reg].holds)
        return GCZ_DONE;
    roots[reg].holds = false;
    return gcz_unpin(gcz, roots[reg].number);
}

static uint32_t pin(gcz_t *gcz, uint32_t reg, uint32_t from) {
    must(drop(gcz, reg));
    uint32_t status = gcz_pin(gcz, from, &roots[reg].number);
    roots[reg].holds = status == GCZ_DONE;
    return status == GCZ_EMPTY ? GCZ_DONE : status;
}

static uint32_t copy(gcz_t *gcz, uint32_t reg, uint32_t from) {
    if (reg >= first_pinned)
        return pin(gcz, reg, from);
    if (from < first_pinned)
        return gcz_copy(gcz, reg, from);
    return roots[from].holds ? gcz_load(gcz, reg, roots[from].number) : gcz_drop(gcz, reg);
}

static void compact(gcz_t *gcz, uint32_t zone) {
    gcz_compacted_t done;
    uint32_t status = gcz_compact(gcz, zone, &done);
    if (print_refusal(status))
        return;
    must(status);
    printf("compacted %" PRIu64 " %" PRIu32 "\n", done.moved, done.given_up);
}

static void collect(gcz_t *gcz, uint64_t zones) {
    if (print_refusal(gcz_begin(gcz, zones)))
        return;
    advance(gcz, UINT64_MAX);
    puts("collected");
}

static void slice(gcz_t *gcz, uint64_t limit) {
    if (!runs(gcz)) {
        puts("idle");
        return;
    }
    uint64_t units = advance(gcz, limit);
    printf("slice %" PRIu64 "\n", units);
}

/* Takes in the arenas that are out, and gives the collection up if it is not over with them. */
static void reset(gcz_t *gcz) {
    gcz_step_t step = {0, GCZ_NO_REPORT, false};
    if (!runs(gcz)) {
        puts("idle");
        return;
    }
    while (!step.finished) {
        must(gcz_reset(gcz, &step));
        print_report(gcz);
    }
    if (step.report == GCZ_SWEPT)
        puts("done");
    puts("reset ok");
}

/* Whether the gray names, one after the other, are those that were listed. */
static bool next_grays_are_listed(gcz_t *gcz, size_t count) {
    gcz_name_t name = {0, GCZ_NOTHING, 0};
    for (size_t index = 0; index < count; index++) {
        gcz_name_t listed;
        must(gcz_gray(gcz, index, &listed));
        must(gcz_next_gray(gcz, &name));
        if (name.number != listed.number || name.kind != listed.kind || name.compartment != listed.compartment)
            return false;
    }
    return gcz_next_gray(gcz, &name) == GCZ_NONE;
}

static void print_grays(gcz_t *gcz) {
    size_t count;
    uint32_t status = gcz_grays(gcz, &count);
    if (print_refusal(status))
        return;
    must(status);
    if (!next_grays_are_listed(gcz, count)) {
        fprintf(stderr, "replay: the next gray names are not those of the list\n");
        exit(1);
    }
    printf("gray");
    print_names(gcz, count, gcz_gray);
    putchar('\n');
}

static void print_line(gcz_line_t line) {
    switch (line.kind) {
    case GCZ_LINE_CELL:
        printf("cell ");
        print_name(line.name);
        printf(line.black ? " b" : " g");
        break;
    case GCZ_LINE_EDGE:
        printf("edge %" PRIu64 " ", line.owner);
        print_name(line.name);
        break;
    case GCZ_LINE_ENTRY:
        printf("weak %" PRIu64 " ", line.owner);
        print_name(line.name);
        putchar(' ');
        print_name(line.value);
        break;
    default:
        printf("end");
    }
    putchar('\n');
}

static void print_dump(gcz_t *gcz) {
    size_t count;
    uint32_t status = gcz_dump(gcz, &count);
    if (print_refusal(status))
        return;
    must(status);
    for (size_t index = 0; index < count; index++) {
        gcz_line_t line;
        must(gcz_dump_line(gcz, index, &line));
        print_line(line);
    }
}

/* Does a line of this many words. Returns false if it is no command. */
static bool do_line(gcz_t *gcz, char **words, int count) {
    const char *word = words[0];
    uint32_t a = count > 1 ? number_of(words[1]) : 0;
    uint32_t b = count > 2 ? number_of(words[2]) : 0;
    uint32_t c = count > 3 ? number_of(words[3]) : 0;
    gcz_name_t answer = {0, GCZ_NOTHING, 0};
    uint32_t status;
#define IS(name, words_of_it) (strcmp(word, name) == 0 && count == (words_of_it))
#define ANSWER(call) (status = (call), print_answer(status, answer), true)
#define ORDER(call) (print_order(call), true)
    if (IS("zone", 1)) return ANSWER(gcz_zone(gcz, &answer));
    if (IS("comp", 2)) return ANSWER(gcz_comp(gcz, a, &answer));
    if (IS("new", 4) || IS("map", 3)) {
        status = word[0] == 'n' ? gcz_new(gcz, a, b, c, &answer) : gcz_map(gcz, a, b, &answer);
        if (status == GCZ_DONE)
            printf("cell ");
        return print_answer(status, answer), true;
    }
    if (IS("get", 4)) return ANSWER(gcz_get(gcz, a, b, c, &answer));
    if (IS("set", 4)) return ORDER(words[3][0] == '-' ? gcz_clear(gcz, a, b) : gcz_set(gcz, a, b, c));
    if (IS("wrap", 4)) return ANSWER(gcz_wrap(gcz, a, b, c, &answer));
    if (IS("unwrap", 3)) return ANSWER(gcz_unwrap(gcz, a, b, &answer));
    if (IS("copy", 3)) return ORDER(copy(gcz, a, b));
    if (IS("drop", 2)) return ORDER(drop(gcz, a));
    if (IS("hold", 3)) return ORDER(gcz_hold(gcz, a, b));
    if (IS("release", 2)) return ORDER(gcz_release(gcz, a));
    if (IS("expose", 3)) return ANSWER(gcz_expose(gcz, a, b, &answer));
    if (IS("put", 4)) return ORDER(gcz_put(gcz, a, b, c));
    if (IS("del", 3)) return ORDER(gcz_del(gcz, a, b));
    if (IS("find", 4)) return ANSWER(gcz_find(gcz, a, b, c, &answer));
    if (IS("weaken", 3)) return ORDER(gcz_weaken(gcz, a, b));
    if (IS("deref", 3)) return ANSWER(gcz_deref(gcz, a, b, &answer));
    if (IS("watch", 2)) return ORDER(gcz_watch(gcz, a));
    if (IS("unwatch", 2)) return ORDER(gcz_unwatch(gcz, a));
    if (IS("compact", 2)) return compact(gcz, a), true;
    if (IS("slice", 2)) return slice(gcz, strtoull(words[1], NULL, 10)), true;
    if (IS("finish", 1)) return slice(gcz, UINT64_MAX), true;
    if (IS("reset", 1)) return reset(gcz), true;
    if (IS("colours", 1)) return print_grays(gcz), true;
    if (IS("dump", 1)) return print_dump(gcz), true;
    if (strcmp(word, "collect") == 0 && count > 1) return collect(gcz, zones_of(words + 1, count - 1)), true;
    if (strcmp(word, "gc") == 0 && count > 1) {
        status = gcz_begin(gcz, zones_of(words + 1, count - 1));
        if (!print_refusal(status)) {
            must(status);
            puts("gc ok");
        }
        return true;
    }
    return false;
}

int main(int count_of_words, char **words_given) {
    gcz_t gcz = GCZ_CLOSED_HANDLE;
    char line[512];
    int status = 0;
    if (count_of_words == 2 && strcmp(words_given[1], "--pin") == 0)
        first_pinned = 8;
    must(gcz_open(&gcz));
    while (status == 0 && fgets(line, sizeof line, stdin)) {
        char *words[MOST_WORDS];
        int count = 0;
        for (char *word = strtok(line, " \n"); word && count < MOST_WORDS; word = strtok(NULL, " \n"))
            words[count++] = word;
        if (count == 0 || !do_line(&gcz, words, count)) {
            fprintf(stderr, "replay: bad line\n");
            status = BAD_LINE;
        }
    }
    gcz_close(&gcz);
    return status;
}
