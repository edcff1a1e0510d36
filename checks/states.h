/* States for single steps of the processor, and records of 128 bytes.

   A state: byte 0 the form, bytes 1 to 15 the instruction, from 16 the eight registers, byte 48 the flags (CF 1, PF 2, ZF 4, SF 8, OF 16), byte 49 the
   instruction's length, from 64 the 64 bytes at WINDOW, of which the first 32 can be written. A step: byte 0 how it went on, byte 1 the flags, byte 2 those that are specified,
   from 4 eip, from 8 the registers, from 40 a bit for each of their bytes that is specified, from 44 as many for the window's bytes, from 64 the window. */
#include <stdint.h>
#include <stdio.h>
#include <stdlib.h>
#include <string.h>

enum { RECORD = 128, PAGE = 4096, CODE = 0x30000800, DATA = 0x20000000, WINDOW = DATA + PAGE - 32, FAR = 0x10000000 };
enum { NEXT, CALL, MEMORY_FAULT, DIVIDE_FAULT, UNSPECIFIED, UNDECODED };
enum { EAX, ECX, EDX, EBX, ESP, EBP, ESI, EDI };

static uint64_t seed;

static uint32_t random32(void) {
    seed = seed * 6364136223846793005u + 1442695040888963407u;
    return (uint32_t)(seed >> 32);
}

static uint32_t below(uint32_t n) { return random32() % n; }

static const uint32_t LIMITS[] = {0, 1, 2, 7, 8, 15, 16, 31, 32, 33, 0x7F, 0x80, 0xFF, 0x100, 0x7FFF, 0x8000, 0xFFFF, 0x10000, 0x7FFFFFFF, 0x80000000, 0xFFFFFFFE, 0xFFFFFFFF};

static uint32_t value(void) {
    switch (below(4)) {
        case 0: return LIMITS[below(sizeof LIMITS / sizeof *LIMITS)];
        case 1: return random32() >> below(32);
        case 2: return -(random32() >> below(32));
        default: return random32();
    }
}

/* An address in the window, at one of its edges, where only a part can be written, past the mapped pages, or in none. */
static uint32_t place(void) {
    switch (below(8)) {
        case 0: return WINDOW + 28 + below(8);
        case 1: return DATA + 2 * PAGE - 6 + below(12);
        case 2: return FAR + below(PAGE);
        case 3: return WINDOW + 32 + below(28);
        default: return WINDOW + below(28);
    }
}

/* The forms: a name, and bytes of which some stand for a choice. m: a ModRM byte with operands, and the number after it is the reg field or r for any
   register; M: the same, a memory alone; 1 2 4: a number of so many bytes; +: a register is added to the byte before; o: 8 times an operation; c: a condition; w: the w bit. */
typedef struct {
    const char *name, *text;
} Form;

static const Form FORMS[] = {
    {"Alu", "o0w mr"}, {"Alu to register", "o2w mr"}, {"Alu al", "o4 1"}, {"Alu eax", "o5 4"}, {"Alu imm8", "80 mo 1"}, {"Alu imm32", "81 mo 4"}, {"Alu sign", "83 mo 1"},
    {"Test", "84w mr"}, {"Test imm", "F7 m0 4"}, {"Test imm8", "F6 m0 1"}, {"Mov", "88w mr"}, {"Mov to register", "8Aw mr"}, {"Mov imm", "C7 m0 4"}, {"Mov imm8", "C6 m0 1"}, {"Mov r", "B8+ 4"},
    {"Mov r8", "B0+ 1"}, {"Lea", "8D Mr"}, {"Inc", "FEw m0"}, {"Dec", "FEw m1"}, {"Not", "F6w m2"}, {"Neg", "F6w m3"}, {"Mul", "F6w m4"}, {"ImulWide", "F6w m5"}, {"Div", "F6w m6"}, {"Idiv", "F6w m7"},
    {"Imul", "0F AF mr"}, {"ImulBy", "69 mr 4"}, {"ImulBy sign", "6B mr 1"}, {"Rol", "C0w m0 1"}, {"Ror", "C0w m1 1"}, {"Shl", "C0w m4 1"}, {"Shr", "C0w m5 1"}, {"Sar", "C0w m7 1"}, {"Shift by one", "D0w ms"}, {"Shift by cl", "D2w ms"},
    {"Shld", "0F A4 mr 1"}, {"Shrd", "0F AC mr 1"}, {"Shld cl", "0F A5 mr"}, {"Shrd cl", "0F AD mr"}, {"Push", "50+"}, {"Push imm", "68 4"}, {"Push m", "FF m6"}, {"Pop", "58+"}, {"Pop m", "8F m0"}, {"Xchg", "86w mr"}, {"Movzx", "0F B6w mr"},
    {"Movsx", "0F BEw mr"}, {"Cmov", "0F 40c mr"}, {"Setcc", "0F 90c m0"}, {"Extend", "98"}, {"Spread", "99"}, {"Bsf", "0F BC mr"}, {"Bsr", "0F BD mr"}, {"Bswap", "0F C8+"}, {"Movs", "A4w"}, {"Stos", "AAw"}, {"Rep movs", "F3 A4w"}, {"Rep stos", "F3 AAw"},
    {"Jmp", "E9 4"}, {"JmpTo", "FF m4"}, {"CallTo", "FF m2"}, {"Jcc", "0F 80c 4"}, {"Call", "E8 4"}, {"Ret", "C3"}, {"Ret drop", "C2 2"}, {"Leave", "C9"}, {"Cld", "FC"}, {"Nop", "90"},
};
enum { FORM_COUNT = sizeof FORMS / sizeof *FORMS };

/* Which of the forms without a w bit may have the prefix 66, which makes their operands two bytes. */
static int takes_operand_size(const char *name) {
    static const char *const WITH[] = {"Alu eax", "Alu imm32", "Alu sign", "Test imm", "Mov imm", "Mov r", "Lea", "Imul", "ImulBy", "ImulBy sign", "Cmov", "Extend", "Spread", "Bsf", "Bsr"};
    for (unsigned i = 0; i < sizeof WITH / sizeof *WITH; i++) {
        if (!strcmp(name, WITH[i])) {
            return 1;
        }
    }
    return 0;
}

typedef struct {
    uint8_t bytes[16];
    int count;
    uint32_t regs[8];
} State;

static void put(State *s, uint32_t byte) { s->bytes[s->count++] = byte; }

static void put_number(State *s, uint32_t number, int size) {
    for (int i = 0; i < size; i++) {
        put(s, number >> 8 * i);
    }
}

/* A ModRM byte with a register, or with an address whose registers are set so that it is the wanted one. */
static void put_operand(State *s, int reg, int memory_alone) {
    uint32_t wanted = place(), disp;
    int base = below(8), index = below(8), scale = below(4);
    switch (memory_alone ? 1 + below(3) : below(4)) {
        case 0: put(s, 0xC0 | reg << 3 | below(8)); break;
        case 1:
            if (base == ESP) {
                base = EBX;
            }
            disp = (int8_t)random32();
            put(s, 0x40 | reg << 3 | base);
            put(s, disp);
            s->regs[base] = wanted - disp;
            break;
        case 2:
            put(s, reg << 3 | 5);
            put_number(s, wanted, 4);
            break;
        default:
            if (index == ESP || index == base) {
                index = base == ESI ? EDI : ESI;
            }
            disp = value();
            put(s, 0x80 | reg << 3 | 4);
            put(s, scale << 6 | index << 3 | base);
            put_number(s, disp, 4);
            s->regs[base] = wanted - disp - (s->regs[index] << scale);
            break;
    }
}

static uint32_t hexadecimal(const char **text) {
    char digits[3] = {(*text)[0], (*text)[1], 0};
    *text += 2;
    return strtoul(digits, 0, 16);
}

static void make_state(int form, uint8_t *record) {
    State s = {.count = 0};
    for (int i = 0; i < 8; i++) {
        s.regs[i] = value();
    }
    s.regs[ESP] = place();
    s.regs[ESI] = below(2) ? place() : s.regs[ESI];
    if (strstr("Movs Stos Rep movs Rep stos", FORMS[form].name)) {
        s.regs[ESI] = place();
        s.regs[EDI] = place();
        s.regs[ECX] = below(3);
    }
    if (!strcmp(FORMS[form].name, "Leave")) {
        s.regs[EBP] = place();
    }
    /* MOVZX and MOVSX take the prefix where they read a byte, the other forms with a w bit where it is set. */
    int wide = below(2), extends = strstr(FORMS[form].name, "Mov") && strchr(FORMS[form].name, 'x');
    int half = below(3) == 0 && (strchr(FORMS[form].text, 'w') ? wide != extends : takes_operand_size(FORMS[form].name));
    if (half) {
        put(&s, 0x66);
    }
    int operation = below(8);
    static const int SHIFTS[] = {0, 1, 4, 5, 7};
    for (const char *t = FORMS[form].text; *t;) {
        if (*t == ' ') {
            t++;
        } else if (*t == 'm' || *t == 'M') {
            int reg = t[1] == 'r' ? (int)below(8) : t[1] == 'o' ? operation : t[1] == 's' ? SHIFTS[below(5)] : t[1] - '0';
            put_operand(&s, reg, *t == 'M');
            t += 2;
        } else if ((*t == '1' || *t == '2' || *t == '4') && (t[1] == 0 || t[1] == ' ')) {
            put_number(&s, value(), *t == '4' && half ? 2 : *t - '0');
            t++;
        } else if (*t == 'o') {
            put(&s, 8 * operation + t[1] - '0');
            t += 2;
        } else if (*t == 'w') {
            s.bytes[s.count - 1] |= wide;
            t++;
        } else if (*t == 'c') {
            s.bytes[s.count - 1] += below(16);
            t++;
        } else if (*t == '+') {
            s.bytes[s.count - 1] += below(8);
            t++;
        } else {
            put(&s, hexadecimal(&t));
        }
    }
    memset(record, 0, RECORD);
    record[0] = form;
    memcpy(record + 1, s.bytes, s.count);
    memcpy(record + 16, s.regs, sizeof s.regs);
    record[48] = below(32);
    record[49] = s.count;
    for (int i = 0; i < 64; i++) {
        record[64 + i] = random32();
    }
    /* a target of a jump is in the code's page or anywhere */
    if (below(2)) {
        uint32_t target = CODE + below(64);
        memcpy(record + 64 + below(60), &target, 4);
    }
}

/* Writes so many states of each form. */
static void write_states(uint64_t first_seed, uint64_t count) {
    uint8_t record[RECORD];
    seed = first_seed;
    for (; count > 0; count--) {
        for (int form = 0; form < FORM_COUNT; form++) {
            make_state(form, record);
            fwrite(record, RECORD, 1, stdout);
        }
    }
}

/* How many steps of each form were the same, and how many weren't. */
static uint64_t same[FORM_COUNT], other[FORM_COUNT];

static void report(void) {
    uint64_t all = 0, differ = 0;
    for (int i = 0; i < FORM_COUNT; i++) {
        printf("%-16s %8llu the same, %llu not\n", FORMS[i].name, (unsigned long long)same[i], (unsigned long long)other[i]);
        all += same[i] + other[i];
        differ += other[i];
    }
    printf("%llu steps, %llu differ\n", (unsigned long long)all, (unsigned long long)differ);
    exit(all == 0 ? 3 : differ != 0);
}

static uint32_t word_at(const uint8_t *record, int at) {
    uint32_t word;
    memcpy(&word, record + at, 4);
    return word;
}

static int bit(const uint8_t *bits, int i) { return bits[i / 8] >> i % 8 & 1; }

static void print_state(const uint8_t *state, const char *what) {
    printf("%s: %s differs:", FORMS[state[0]].name, what);
    for (int i = 1; i <= state[49]; i++) {
        printf(" %02X", state[i]);
    }
    printf(", flags %02X\n  registers", state[48]);
    for (int i = 0; i < 8; i++) {
        printf(" %08X", word_at(state, 16 + 4 * i));
    }
    printf("\n");
}

static void print_step(const uint8_t *step, const char *whose) {
    printf("  %-9s %d flags %02X of %02X eip %08X:", whose, step[0], step[1], step[2], word_at(step, 4));
    for (int i = 0; i < 8; i++) {
        printf(" %08X", word_at(step, 8 + 4 * i));
    }
    printf("\n");
}
