/* Calls the library, each call between two stores to `mark`, so that a trace of all reads and writes of memory shows what it touches; says where things lie. */
#include <ledusprig.h>
#include <stdint.h>
#include <stdio.h>

#if defined(__x86_64__)
register char *stack __asm__("rsp");
#elif defined(__aarch64__)
register char *stack __asm__("sp");
#else
#error "the stack pointer is known for x86-64 and Arm"
#endif

static volatile uint32_t mark;
static uint8_t block[TAKUM_BLOCK_SIZE];
static uint64_t words[TAKUM_BLOCK_WORDS], results[TAKUM_BLOCK_WORDS];

static void say(const char *what, const volatile void *at, size_t bytes) {
    printf("%s %llx %zu\n", what, (unsigned long long)(uintptr_t)at, bytes);
}

#define TOUCH(name, call)       \
    do {                        \
        say(name, stack, 0);    \
        mark = 1;               \
        refusals |= (call);     \
        mark = 0;               \
    } while (0)

int main(void) {
    uint32_t refusals = 0;
    for (unsigned i = 0; i < TAKUM_BLOCK_WORDS; i++) words[i] = 0x5a00 + i;
    say("mark", &mark, sizeof mark);
    say("block", block, sizeof block);
    say("results", results, sizeof results);

    TOUCH("takum_write_block", takum_write_block(16, 7, words, 248, block, sizeof block).refusal);
    TOUCH("takum_read_block", takum_read_block(block, sizeof block, results, TAKUM_BLOCK_WORDS).refusal);
    TOUCH("takum_move_column", takum_move_column(16, 64, TAKUM_ROUNDED, words, 248, results, 248).refusal);
    TOUCH("takum_move_column", takum_move_column(16, 64, TAKUM_STRICT, words, 248, results, 248).refusal);
    /* in B, so that the whole walk for A and B is made, and nothing after it */
    *(volatile uint8_t *)&block[508] ^= 1;
    TOUCH("takum_read_block", takum_read_block(block, sizeof block, results, TAKUM_BLOCK_WORDS).refusal ^ TAKUM_CHECK);
    return refusals != 0;
}
