/* A loop of bkit's instructions in plain C, without checks of the code: n := 0 ; WHILE n < LIMIT DO n := n + 1.
 *
 *   cc -O2 -o vm vm.c
 *   ./vm LIMIT     runs it and prints its steps, nine for each turn, and the seconds
 */
#include <stdint.h>
#include <stdio.h>
#include <stdlib.h>
#include <time.h>

enum { PUSH = 1, LOAD, STORE, ADD = 6, LT = 0x0D, JUMP = 0x10, JUMPZERO, RET };

/* number: a pushed number, a slot or a jump's distance */
typedef struct { int op; int64_t number; } Inst;

#define MAX 2147483647

/* The steps up to the Ret; 0 at a trap. */
static uint64_t run(const Inst *code) {
    int64_t stack[1000], cells[2] = {0};
    uint64_t steps = 0;
    int depth = 0, place = 0;
    for (;;) {
        const Inst inst = code[place];
        steps++;
        switch (inst.op) {
        case PUSH: stack[depth++] = inst.number; place++; break;
        case LOAD: stack[depth++] = cells[inst.number]; place++; break;
        case STORE: cells[inst.number] = stack[--depth]; place++; break;
        case ADD: {
            int64_t sum = stack[depth - 2] + stack[depth - 1];
            if (sum > MAX || sum < -MAX) return 0;
            depth--; stack[depth - 1] = sum; place++; break;
        }
        case LT: depth--; stack[depth - 1] = stack[depth - 1] < stack[depth]; place++; break;
        case JUMP: place += inst.number; break;
        case JUMPZERO: if (stack[--depth] == 0) place += inst.number; else place++; break;
        case RET: return steps;
        }
    }
}

int main(int argc, char **argv) {
    if (argc != 2) return fputs("vm LIMIT\n", stderr), 2;
    const Inst code[] = {
        {PUSH, 0}, {STORE, 0},
        {LOAD, 0}, {PUSH, atoll(argv[1])}, {LT, 0}, {JUMPZERO, 6},
        {LOAD, 0}, {PUSH, 1}, {ADD, 0}, {STORE, 0}, {JUMP, -8},
        {RET, 0}};
    struct timespec begin, end;
    clock_gettime(CLOCK_MONOTONIC, &begin);
    uint64_t steps = run(code);
    clock_gettime(CLOCK_MONOTONIC, &end);
    double seconds = (double)(end.tv_sec - begin.tv_sec) + 1e-9 * (double)(end.tv_nsec - begin.tv_nsec);
    printf("%llu steps %.3f s\n", (unsigned long long)steps, seconds);
    return 0;
}
