/* The table of instructions in plain C, without checks of the code: the measure for the proved runner.
 *
 *   cc -O2 -o vm vm.c              the range is a variable
 *   cc -O2 -DCONSTANT -o vm vm.c   it is that of 2147483647, a part of the machine instructions
 *   ./vm loop             runs a table and prints its steps and the processor's seconds
 *   ./vm loop image       writes the same table as an image whose one operation has this code
 *
 * A number behind these is the range's, 2147483647 where there is none. Images have it in both.
 */
#include <stdint.h>
#include <stdio.h>
#include <stdlib.h>
#include <string.h>
#include <time.h>

enum { PUSH = 1, LOAD, STORE, ALOAD, ASTORE, ADD, MUL = 8, LT = 0x0D, JUMP = 0x10, JUMPZERO, RET };

/* number: a pushed number, a slot, an array's base or a jump's distance */
typedef struct { int op; uint32_t count; int64_t number, low; } Inst;

#define USUAL 2147483647
#ifdef CONSTANT
#define MAX USUAL
#else
#define MAX max
#endif
#define CELLS 1002

/* cell 0 counts to 11111111: nine instructions a turn */
static const Inst loop[] = {
    {PUSH, 0, 0}, {STORE, 0, 0},
    {LOAD, 0, 0}, {PUSH, 0, 11111111}, {LT}, {JUMPZERO, 0, 6},
    {LOAD, 0, 0}, {PUSH, 0, 1}, {ADD}, {STORE, 0, 0}, {JUMP, 0, -8},
    {RET}};

/* 8332 times: cell 1 counts to 1000, and each element of the array after it becomes its index */
static const Inst fill[] = {
    {PUSH, 0, 0}, {STORE, 0, 0},
    {LOAD, 0, 0}, {PUSH, 0, 8332}, {LT}, {JUMPZERO, 0, 20},
    {PUSH, 0, 0}, {STORE, 0, 1},
    {LOAD, 0, 1}, {PUSH, 0, 1000}, {LT}, {JUMPZERO, 0, 9},
    {LOAD, 0, 1}, {LOAD, 0, 1}, {ASTORE, 1000, 2, 0},
    {LOAD, 0, 1}, {PUSH, 0, 1}, {ADD}, {STORE, 0, 1}, {JUMP, 0, -11},
    {LOAD, 0, 0}, {PUSH, 0, 1}, {ADD}, {STORE, 0, 0}, {JUMP, 0, -22},
    {RET}};

/* 6660 times: cell 1 counts to 1000, and each element of the array after it becomes one more */
static const Inst raise[] = {
    {PUSH, 0, 0}, {STORE, 0, 0},
    {LOAD, 0, 0}, {PUSH, 0, 6660}, {LT}, {JUMPZERO, 0, 23},
    {PUSH, 0, 0}, {STORE, 0, 1},
    {LOAD, 0, 1}, {PUSH, 0, 1000}, {LT}, {JUMPZERO, 0, 12},
    {LOAD, 0, 1}, {LOAD, 0, 1}, {ALOAD, 1000, 2, 0}, {PUSH, 0, 1}, {ADD}, {ASTORE, 1000, 2, 0},
    {LOAD, 0, 1}, {PUSH, 0, 1}, {ADD}, {STORE, 0, 1}, {JUMP, 0, -14},
    {LOAD, 0, 0}, {PUSH, 0, 1}, {ADD}, {STORE, 0, 0}, {JUMP, 0, -25},
    {RET}};

/* 7692307 times: cell 1 becomes a product, which is in each range from 1936000000 on */
static const Inst multiply[] = {
    {PUSH, 0, 0}, {STORE, 0, 0},
    {LOAD, 0, 0}, {PUSH, 0, 7692307}, {LT}, {JUMPZERO, 0, 10},
    {PUSH, 0, 44000}, {PUSH, 0, 44000}, {MUL}, {STORE, 0, 1},
    {LOAD, 0, 0}, {PUSH, 0, 1}, {ADD}, {STORE, 0, 0}, {JUMP, 0, -12},
    {RET}};

static int64_t stack[1000], cells[CELLS];

/* The steps up to the Ret; 0 at a trap. */
static uint64_t run(const Inst *code, int64_t max) {
    uint64_t steps = 0;
    int depth = 0, place = 0;
    for (;;) {
        const Inst inst = code[place];
        steps++;
        switch (inst.op) {
        case PUSH: stack[depth++] = inst.number; place++; break;
        case LOAD: stack[depth++] = cells[inst.number]; place++; break;
        case STORE: cells[inst.number] = stack[--depth]; place++; break;
        case ALOAD: {
            int64_t offset = stack[depth - 1] - inst.low;
            if (offset < 0 || offset >= inst.count) return 0;
            stack[depth - 1] = cells[inst.number + offset]; place++; break;
        }
        case ASTORE: {
            int64_t offset = stack[depth - 2] - inst.low;
            if (offset < 0 || offset >= inst.count) return 0;
            cells[inst.number + offset] = stack[depth - 1]; depth -= 2; place++; break;
        }
        case ADD: {
            int64_t sum = stack[depth - 2] + stack[depth - 1];
            if (sum > MAX || sum < -MAX) return 0;
            depth--; stack[depth - 1] = sum; place++; break;
        }
        case MUL: {
            int64_t product;
            if (__builtin_mul_overflow(stack[depth - 2], stack[depth - 1], &product)) return 0;
            if (product > MAX || product < -MAX) return 0;
            depth--; stack[depth - 1] = product; place++; break;
        }
        case LT: depth--; stack[depth - 1] = stack[depth - 1] < stack[depth]; place++; break;
        case JUMP: place += inst.number; break;
        case JUMPZERO: if (stack[--depth] == 0) place += inst.number; else place++; break;
        case RET: return steps;
        }
    }
}

static void put(uint64_t number, int bytes) {
    while (bytes-- > 0) putchar((int)(number >> 8 * bytes & 0xFF));
}

/* The initialisation is a Ret at place 0, and the operation's code starts at place 1. */
static void write_image(const Inst *code, int count, int64_t max) {
    fputs("BKIM", stdout);
    if (max == USUAL) put(1, 2); /* the layout's number, in the second one with the range */
    else put(2, 2), put(max, 8);
    put(CELLS, 4), put(0, 2), put(1, 2);            /* cells, sets, operations */
    put(0, 2), put(1, 4), put(0, 2), put(0, 2);     /* the operation's name, place, inputs and outputs */
    put(count + 1, 4), put(RET, 1);
    for (int i = 0; i < count; i++) {
        put(code[i].op, 1);
        switch (code[i].op) {
        case PUSH: put(code[i].number, 8); break;
        case ALOAD: case ASTORE: put(code[i].number, 4), put(code[i].low, 8), put(code[i].count, 4); break;
        case LOAD: case STORE: case JUMP: case JUMPZERO: put(code[i].number, 4);
        }
    }
}

#define TABLE(name) {#name, name, sizeof name / sizeof *name}
static const struct { const char *name; const Inst *code; int count; } tables[] = {TABLE(loop), TABLE(fill), TABLE(raise), TABLE(multiply)};

int main(int argc, char **argv) {
    int image = argc > 2 && !strcmp(argv[2], "image");
    int64_t max = argc > 2 + image ? strtoll(argv[2 + image], NULL, 10) : USUAL;
    for (int i = 0; argc > 1 && i < 4; i++) {
        if (strcmp(argv[1], tables[i].name)) continue;
        if (image) return write_image(tables[i].code, tables[i].count, max), 0;
        clock_t begin = clock();
        uint64_t steps = run(tables[i].code, max);
        printf("%s %llu steps %.3f s\n", argv[1], (unsigned long long)steps, (double)(clock() - begin) / CLOCKS_PER_SEC);
        return 0;
    }
    return fputs("vm loop|fill|raise|multiply [image] [RANGE]\n", stderr), 2;
}
