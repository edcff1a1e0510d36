/* Makes single steps on the processor, from states that it makes up, and compares them with the steps that another program made of the
   same states.

   steps_on_processor make SEED COUNT: writes COUNT states of each form of instruction, a record of 128 bytes each.
   steps_on_processor compare STATES STEPS: makes each step by the processor, with the trap flag set, and compares it with the record of
   the other program. Prints a line for each form: how many steps were the same, and the first that weren't. checks/states.h says what a
   record has. */
#define _GNU_SOURCE
#include "states.h"
#include <signal.h>
#include <sys/mman.h>
#include <ucontext.h>

static FILE *states, *steps;
static uint8_t state[RECORD], step[RECORD], made[RECORD];
static const int NUMBERS[] = {REG_EAX, REG_ECX, REG_EDX, REG_EBX, REG_ESP, REG_EBP, REG_ESI, REG_EDI};
static const int FLAG_BITS[] = {0, 2, 6, 7, 11};

static void print_difference(const char *what) {
    print_state(state, what);
    print_step(made, "processor");
    print_step(step, "program");
}

// The stated machine goes on behind a repeat by a step of its own, once ecx is 0; the processor does so with the last iteration.
static int is_last_iteration(void) {
    uint32_t at = CODE, behind = CODE + state[49], one = 1;
    return !strncmp(FORMS[state[0]].name, "Rep ", 4) && !memcmp(state + 20, &one, 4) && !memcmp(step + 4, &at, 4) && !memcmp(made + 4, &behind, 4);
}

// A scan that finds no bit leaves its target unspecified, and where that is esp the stated machine claims nothing more.
static int is_unspecified_esp(void) {
    return step[0] == UNSPECIFIED && made[0] == NEXT && made[1] & 4 && !strncmp(FORMS[state[0]].name, "Bs", 2) && strcmp(FORMS[state[0]].name, "Bswap");
}

static const char *difference(void) {
    if (is_unspecified_esp()) {
        return 0;
    }
    if (step[0] != made[0]) {
        return "the end";
    }
    if (memcmp(step + 4, made + 4, 4) && !is_last_iteration()) {
        return "eip";
    }
    for (int i = 0; i < 32; i++) {
        if (bit(step + 40, i) && step[8 + i] != made[8 + i]) {
            return "a register";
        }
    }
    if ((step[1] ^ made[1]) & step[2]) {
        return "a flag";
    }
    for (int i = 0; i < 64; i++) {
        if (bit(step + 44, i) && step[64 + i] != made[64 + i]) {
            return "memory";
        }
    }
    return 0;
}

static void load_next(ucontext_t *context) {
    if (fread(state, RECORD, 1, states) != 1 || fread(step, RECORD, 1, steps) != 1) {
        report();
    }
    memcpy((void *)WINDOW, state + 64, 32);
    mprotect((void *)(DATA + PAGE), PAGE, PROT_READ | PROT_WRITE);
    memcpy((void *)(WINDOW + 32), state + 96, 32);
    mprotect((void *)(DATA + PAGE), PAGE, PROT_READ);
    memcpy((void *)CODE, state + 1, 15);
    for (int i = 0; i < 8; i++) {
        memcpy(&context->uc_mcontext.gregs[NUMBERS[i]], state + 16 + 4 * i, 4);
    }
    uint32_t flags = 0x102;
    for (int i = 0; i < 5; i++) {
        flags |= (uint32_t)(state[48] >> i & 1) << FLAG_BITS[i];
    }
    context->uc_mcontext.gregs[REG_EFL] = flags;
    context->uc_mcontext.gregs[REG_EIP] = CODE;
}

// The stack that the process began with, which isn't used once the steps begin: a step that has to fault must not find it.
static uintptr_t stack_start, stack_end;

static void find_stack(void) {
    FILE *maps = fopen("/proc/self/maps", "r");
    char line[512];
    unsigned long start, end;
    while (maps && fgets(line, sizeof line, maps)) {
        if (strstr(line, "[stack]") && sscanf(line, "%lx-%lx", &start, &end) == 2) {
            stack_start = start;
            stack_end = end;
        }
    }
    if (maps) {
        fclose(maps);
    }
}

static void on_signal(int number, siginfo_t *info, void *opaque) {
    ucontext_t *context = opaque;
    (void)info;
    if (number == SIGUSR1) {
        munmap((void *)stack_start, stack_end - stack_start);
    } else {
        memset(made, 0, RECORD);
        made[0] = number == SIGTRAP ? NEXT : number == SIGSEGV ? MEMORY_FAULT : number == SIGFPE ? DIVIDE_FAULT : UNDECODED;
        uint32_t eip = context->uc_mcontext.gregs[REG_EIP], flags = context->uc_mcontext.gregs[REG_EFL];
        memcpy(made + 4, &eip, 4);
        for (int i = 0; i < 8; i++) {
            memcpy(made + 8 + 4 * i, &context->uc_mcontext.gregs[NUMBERS[i]], 4);
        }
        for (int i = 0; i < 5; i++) {
            made[1] |= (flags >> FLAG_BITS[i] & 1) << i;
        }
        memcpy(made + 64, (void *)WINDOW, 64);
        const char *what = difference();
        same[state[0]] += !what;
        other[state[0]] += !!what;
        if (what && other[state[0]] <= 3) {
            print_difference(what);
        }
    }
    load_next(context);
}

static void *mapped(uint32_t at, size_t size, int protection) {
    void *got = mmap((void *)at, size, protection, MAP_PRIVATE | MAP_ANONYMOUS | MAP_FIXED, -1, 0);
    if (got == MAP_FAILED) {
        perror("mmap");
        exit(3);
    }
    return got;
}

static int compare(const char *from, const char *with) {
    states = fopen(from, "rb");
    steps = fopen(with, "rb");
    if (!states || !steps) {
        perror("fopen");
        return 3;
    }
    mapped(DATA, 2 * PAGE, PROT_READ | PROT_WRITE);
    mapped(CODE & -PAGE, PAGE, PROT_READ | PROT_WRITE | PROT_EXEC);
    stack_t stack = {.ss_sp = mapped(0x47135000, 16 * PAGE, PROT_READ | PROT_WRITE), .ss_size = 16 * PAGE};
    sigaltstack(&stack, 0);
    struct sigaction action = {.sa_sigaction = on_signal, .sa_flags = SA_SIGINFO | SA_ONSTACK};
    for (unsigned i = 0; i < 6; i++) {
        sigaction((int[]){SIGUSR1, SIGTRAP, SIGSEGV, SIGFPE, SIGILL, SIGBUS}[i], &action, 0);
    }
    find_stack();
    raise(SIGUSR1);
    return 1;
}

int main(int count, char **words) {
    if (count == 4 && !strcmp(words[1], "make")) {
        write_states(strtoull(words[2], 0, 10), strtoull(words[3], 0, 10));
        return 0;
    }
    if (count == 4 && !strcmp(words[1], "compare")) {
        return compare(words[2], words[3]);
    }
    fprintf(stderr, "make SEED COUNT, or compare STATES STEPS\n");
    return 3;
}
