/* How much stack each call of the library takes: linked into a test with -Wl,--wrap=NAME for each call, it has them run on a stack of their
 * own, which is painted before. When the program ends, a line of the file STACKS tells of each call that was made the most bytes that it
 * wrote over there. names.inc has a line NAME(call) for each call. */
#include <stdint.h>
#include <stdio.h>
#include <stdlib.h>

enum { WORDS = 1 << 13, PAINT = 0x5a };

#define NAME(name) CALL_##name,
enum {
#include "names.inc"
    CALLS
};
#undef NAME

#define NAME(name) #name,
static const char *const names[] = {
#include "names.inc"
};
#undef NAME

__attribute__((aligned(16))) static uint64_t stack[WORDS];
static size_t most[CALLS];
static const uint64_t paint = 0x0101010101010101u * PAINT;

/* What stack_run finds: where the stack begins, whether a call is under way on it, and its number. */
uint64_t *stack_top;
uint64_t stack_inside, stack_call;

/* The call that is over wrote over so much; it is painted anew. */
void stack_noted(void)
{
    size_t at = 0;
    while (at < WORDS && stack[at] == paint)
        at++;
    const size_t bytes = (WORDS - at) * sizeof *stack;
    if (bytes > most[stack_call])
        most[stack_call] = bytes;
    for (; at < WORDS; at++)
        stack[at] = paint;
}

__attribute__((constructor)) static void begin(void)
{
    for (size_t i = 0; i < WORDS; i++)
        stack[i] = paint;
    stack_top = stack + WORDS;
}

__attribute__((destructor)) static void tell(void)
{
    const char *path = getenv("STACKS");
    FILE *file = path ? fopen(path, "a") : NULL;
    for (size_t i = 0; file && i < CALLS; i++)
        if (most[i])
            fprintf(file, "%zu %s\n", most[i], names[i]);
    if (file)
        fclose(file);
}

/* r10 has the function and r11 the call's number. Up to four arguments stand on the caller's stack. */
__asm__(".text\n"
        "stack_run:\n"
        "    cmpq $0, stack_inside(%rip)\n"
        "    jne 1f\n"
        "    movq $1, stack_inside(%rip)\n"
        "    movq %r11, stack_call(%rip)\n"
        "    pushq %rbp\n"
        "    movq %rsp, %rbp\n"
        "    movq stack_top(%rip), %rsp\n"
        "    pushq 40(%rbp)\n"
        "    pushq 32(%rbp)\n"
        "    pushq 24(%rbp)\n"
        "    pushq 16(%rbp)\n"
        "    call *%r10\n"
        "    movq %rbp, %rsp\n"
        "    pushq %rax\n"
        "    pushq %rdx\n"
        "    call stack_noted\n"
        "    popq %rdx\n"
        "    popq %rax\n"
        "    popq %rbp\n"
        "    movq $0, stack_inside(%rip)\n"
        "    ret\n"
        "1:  jmp *%r10\n");

/* A top-level assembler text has no operands, so the assembler counts the calls. */
__asm__(".set stack_count, 0\n");
#define NAME(name) \
    __asm__(".set stack_number_" #name ", stack_count\n.set stack_count, stack_count + 1\n" \
            ".globl __wrap_" #name "\n__wrap_" #name ":\n" \
            "    leaq __real_" #name "(%rip), %r10\n    movq $stack_number_" #name ", %r11\n    jmp stack_run\n");
#include "names.inc"
