/* What the programs here share: the kernel's calls, which are all that they use of the outside, and a beginning that keeps to the
   profile of the machine. Compiled without a library. */
static int call(int number, int first, int second, int third) {
    int result;
    __asm__ volatile("int $0x80" : "=a"(result) : "a"(number), "b"(first), "c"(second), "d"(third) : "memory");
    return result;
}

/* Writes a number in decimal, and a newline. */
static void print(unsigned number) {
    char text[12];
    int at = sizeof text;
    text[--at] = '\n';
    do {
        text[--at] = '0' + number % 10;
        number /= 10;
    } while (number);
    call(4, 1, (int)(text + at), sizeof text - at);
}

static unsigned work(void);

void _start(void) {
    print(work());
    call(1, 0, 0, 0);
    for (;;) {
    }
}
