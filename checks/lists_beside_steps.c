/* Compares what the lists of instructions came to with what their steps came to, from the same states.

   lists_beside_steps make SEED COUNT: writes COUNT states of each form of instruction, a record of 128 bytes each.
   lists_beside_steps compare STATES STEPS LISTS: compares the records of the steps with those of the lists, wherever the step is specified. Prints a line
   for each form: how many were the same, and the first that weren't. checks/states.h says what a record has. */
#include "states.h"

static uint8_t state[RECORD], step[RECORD], list[RECORD];

static int same_bytes(int at, int bits, int count) {
    for (int i = 0; i < count; i++) {
        if (bit(step + bits, i) && (!bit(list + bits, i) || step[at + i] != list[at + i])) {
            return 0;
        }
    }
    return 1;
}

/* A step that uses an unspecified value asks nothing of the list, and one that ends the run only that the list ends so. */
static const char *difference(void) {
    if (step[0] == UNSPECIFIED) {
        return 0;
    }
    if (step[0] != list[0]) {
        return "the end";
    }
    if (step[0] != NEXT) {
        return 0;
    }
    if (memcmp(step + 4, list + 4, 4)) {
        return "eip";
    }
    if ((step[2] & ~list[2]) || ((step[1] ^ list[1]) & step[2])) {
        return "a flag";
    }
    return !same_bytes(8, 40, 32) ? "a register" : !same_bytes(64, 44, 64) ? "memory" : 0;
}

static uint64_t went[UNDECODED + 1];

static int compare(const char *states, const char *steps, const char *lists) {
    FILE *from = fopen(states, "rb"), *with = fopen(steps, "rb"), *and = fopen(lists, "rb");
    if (!from || !with || !and) {
        perror("fopen");
        return 3;
    }
    while (fread(state, RECORD, 1, from) == 1) {
        if (fread(step, RECORD, 1, with) != 1 || fread(list, RECORD, 1, and) != 1) {
            fprintf(stderr, "%s or %s has fewer records\n", steps, lists);
            return 3;
        }
        const char *what = difference();
        same[state[0]] += !what;
        other[state[0]] += !!what;
        went[step[0] <= UNDECODED ? step[0] : UNDECODED] += 1;
        if (what && other[state[0]] <= 3) {
            print_state(state, what);
            print_step(step, "step");
            print_step(list, "list");
        }
    }
    printf("steps: %llu go on, %llu fault, %llu use an unspecified value, %llu aren't decoded\n", (unsigned long long)went[NEXT],
           (unsigned long long)(went[MEMORY_FAULT] + went[DIVIDE_FAULT]), (unsigned long long)went[UNSPECIFIED], (unsigned long long)went[UNDECODED]);
    report();
    return 3;
}

int main(int count, char **words) {
    if (count == 4 && !strcmp(words[1], "make")) {
        write_states(strtoull(words[2], 0, 10), strtoull(words[3], 0, 10));
        return 0;
    }
    if (count == 5 && !strcmp(words[1], "compare")) {
        return compare(words[2], words[3], words[4]);
    }
    fprintf(stderr, "make SEED COUNT, or compare STATES STEPS LISTS\n");
    return 3;
}
