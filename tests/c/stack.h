// How much stack a call takes: it runs on a painted one.
#ifndef STACK_H
#define STACK_H

#include <stddef.h>
#include <stdint.h>
#include <string.h>
#include <ucontext.h>

enum { STACK = 65536, POINT_STACK = 8192, COUNT_STACK = 16384, PAINT = 0xA5 };

static uint8_t stack[STACK];
static ucontext_t back, there;

// Runs a call on a stack of this size, below which there is more to see what it touches. Gives how many bytes it took.
static size_t stack_of(void (*call)(void), size_t size) {
    memset(stack, PAINT, STACK);
    getcontext(&there);
    there.uc_stack.ss_sp = stack + STACK - size;
    there.uc_stack.ss_size = size;
    there.uc_link = &back;
    makecontext(&there, call, 0);
    swapcontext(&back, &there);
    size_t kept = 0;
    while (kept < STACK && stack[kept] == PAINT)
        kept++;
    return STACK - kept;
}

#endif
