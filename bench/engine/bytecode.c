/* A machine of a stack and eight registers runs a program that counts the steps of Collatz's rule: a loop around a
   jump table. */
#include "entry.h"

#define BOUND 4600

enum { PUSH, GET, SET, ADD, MULTIPLY, HALVE, ODD, LESS, JUMP, JUMP_IF, HALT };

/* In register 0 the number, in 1 where it began, in 2 the sum of steps, in 3 the bound. */
static const u8 program[] = {
    PUSH, 1, SET, 1,                                           /*  0: the first number to begin from */
    GET, 1, SET, 0,                                            /*  4: begin */
    GET, 0, PUSH, 2, LESS, JUMP_IF, 46,                        /*  8: go on until it is 1 */
    GET, 2, PUSH, 1, ADD, SET, 2,                              /* 15: one step more */
    GET, 0, ODD, JUMP_IF, 34,                                  /* 22 */
    GET, 0, HALVE, SET, 0, JUMP, 8,                            /* 27: an even one is halved */
    GET, 0, PUSH, 3, MULTIPLY, PUSH, 1, ADD, SET, 0, JUMP, 8,  /* 34: an odd one is taken three times, and 1 */
    GET, 1, PUSH, 1, ADD, SET, 1,                              /* 46: the next to begin from */
    GET, 1, GET, 3, LESS, JUMP_IF, 4, HALT};                   /* 53 */

static u32 run(u32 bound) {
    u32 stack[16], registers[8] = {0, 0, 0, bound}, *top = stack;
    const u8 *at = program;
    for (;;) {
        switch (*at++) {
        case PUSH: *top++ = *at++; break;
        case GET: *top++ = registers[*at++ & 7]; break;
        case SET: registers[*at++ & 7] = *--top; break;
        case ADD: top--; top[-1] += top[0]; break;
        case MULTIPLY: top--; top[-1] *= top[0]; break;
        case HALVE: top[-1] >>= 1; break;
        case ODD: top[-1] &= 1; break;
        case LESS: top--; top[-1] = top[-1] < top[0]; break;
        case JUMP: at = program + *at; break;
        case JUMP_IF: at = *--top ? program + *at : at + 1; break;
        default: return registers[2];
        }
    }
}

static u32 work(void) { return run(BOUND); }

ENTRY(351384u)
