/* The floating-point state of the processor: where it has its rounding mode and its exception flags. */
#include "rounding.h"

const char *const modes[MODES] = {"nearest", "downward", "upward", "zero"};

typedef struct {
    uint32_t bit;
    const char *name;
} flag;

#if defined(__x86_64__)

/* The register MXCSR: bits 0 to 5 are flags, bits 7 to 12 keep each from interrupting the program, and bits 13 and 14 are the rounding mode. The
 * flag 2 is raised where an operand is subnormal; it is none of IEEE 754's, and is not looked at. */
enum { INVALID = 1, UNINTERRUPTED = 0x3f << 7, MODE_BIT = 13 };

static const flag flags[] = {{INVALID, "INVALID"}, {4, "DIVBYZERO"}, {8, "OVERFLOW"}, {16, "UNDERFLOW"}, {32, "INEXACT"}};
static const uint32_t mode_numbers[MODES] = {0, 1, 2, 3};

static uint32_t state(void) {
    uint32_t now;
    __asm__ volatile("stmxcsr %0" : "=m"(now));
    return now;
}

static uint32_t mode_now(void) {
    return state() >> MODE_BIT;
}

static uint32_t flags_now(void) {
    return state();
}

static void set_flags(uint32_t to, uint32_t mode) {
    uint32_t next = UNINTERRUPTED | mode << MODE_BIT | (to & 0x3f);
    __asm__ volatile("ldmxcsr %0" : : "m"(next));
}

#elif defined(__aarch64__)

/* The register FPSR has the flags, FPCR the rounding mode in bits 22 and 23. The flag 128, for a subnormal operand, is none of IEEE 754's. */
enum { INVALID = 1, MODE_BIT = 22 };

static const flag flags[] = {{INVALID, "INVALID"}, {2, "DIVBYZERO"}, {4, "OVERFLOW"}, {8, "UNDERFLOW"}, {16, "INEXACT"}};
static const uint32_t mode_numbers[MODES] = {0, 2, 1, 3};

static uint32_t mode_now(void) {
    uint64_t now;
    __asm__ volatile("mrs %0, fpcr" : "=r"(now));
    return (uint32_t)now >> MODE_BIT;
}

static uint32_t flags_now(void) {
    uint64_t now;
    __asm__ volatile("mrs %0, fpsr" : "=r"(now));
    return (uint32_t)now;
}

static void set_flags(uint32_t to, uint32_t mode) {
    uint64_t control = (uint64_t)mode << MODE_BIT, status = to;
    __asm__ volatile("msr fpcr, %0\n\tmsr fpsr, %1" : : "r"(control), "r"(status));
}

#else
#error "the registers of this processor are not known"
#endif

void set_mode(unsigned mode) {
    set_flags(0, mode_numbers[mode]);
}

void put_state(answer *to, unsigned mode) {
    uint32_t raised = flags_now(), mode_after = mode_now();
    set_mode(0);
    for (size_t i = 0; i < sizeof flags / sizeof flags[0]; i++) {
        if (raised & flags[i].bit) {
            put(to, ", raising ");
            put(to, flags[i].name);
        }
    }
    if (mode_after != mode_numbers[mode]) {
        put(to, ", changing the rounding mode");
    }
}

void lower_invalid(void) {
    set_flags(flags_now() & ~(uint32_t)INVALID, mode_now());
}
