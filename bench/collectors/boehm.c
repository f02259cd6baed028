/* Answers a trace of bench/engines.py with the Boehm collector: a cell is a block of as many words as it has fields.
   There are no zones, wrappers and weak entries here: status 3 at a line that asks for one. It writes a line once it has
   collected. */

/* For GC_set_markers_count: one thread marks, as elsewhere. */
#define GC_THREADS
#include <gc.h>
#include <stdio.h>
#include <stdlib.h>
#include <string.h>

enum { REGISTERS = 16, MOST_WORDS = 4, NOT_SERVED = 3 };

/* The collector finds the roots of a program by itself. */
static void **registers[REGISTERS];

static int number(const char *word) { return atoi(word[0] == 'r' ? word + 1 : word); }

static void make(char **words) {
  int fields = number(words[3]);
  registers[number(words[1])] = GC_MALLOC((fields ? fields : 1) * sizeof(void *));
}

static void set(char **words) { registers[number(words[1])][number(words[2])] = registers[number(words[3])]; }

static void copy(char **words) { registers[number(words[1])] = registers[number(words[2])]; }

static void drop(char **words) { registers[number(words[1])] = NULL; }

static void collect(char **words) {
  (void)words;
  GC_gcollect();
  puts("collected");
  fflush(stdout);
}

static void nothing(char **words) { (void)words; }

static const struct {
  const char *word;
  void (*answer)(char **words);
} COMMANDS[] = {
    {"new", make}, {"set", set}, {"copy", copy}, {"drop", drop}, {"collect", collect}, {"zone", nothing}, {"comp", nothing},
};

static int answer(char *line) {
  char *words[MOST_WORDS] = {0};
  size_t count = 0;
  for (char *word = strtok(line, " \n"); word && count < MOST_WORDS; word = strtok(NULL, " \n")) {
    words[count++] = word;
  }
  for (size_t each = 0; each < sizeof COMMANDS / sizeof *COMMANDS; each++) {
    if (strcmp(words[0], COMMANDS[each].word) == 0) {
      COMMANDS[each].answer(words);
      return 1;
    }
  }
  return 0;
}

int main(void) {
  char line[256];
  GC_set_markers_count(1);
  GC_INIT();
  while (fgets(line, sizeof line, stdin)) {
    if (!answer(line)) {
      return NOT_SERVED;
    }
  }
  return 0;
}
