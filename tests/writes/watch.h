/* Which bytes of a lent table are stored to, store by store, on x86-64 Linux: the table's pages may only be read while it is watched, so that each
 * instruction that stores into them stops. It is then run alone three times from the same registers: twice over patterns that differ in every byte, and
 * what is no longer the pattern in one of the two was stored to, whatever the value; then over the table as it was, so that the run goes on.
 * A store of the value that stands there already is seen, and no instruction needs to be understood. */
#ifndef WATCH_H
#define WATCH_H

#include <signal.h>
#include <stdlib.h>
#include <sys/mman.h>
#include <ucontext.h>

#include "check.h"

enum { PAGE = 4096, REGION_MOST = (COLUMN_WORDS * 4 + 2 * PAGE - 1) / PAGE * PAGE, EDGE = 1028, TRAP_FLAG = 0x100, WRITE_FAULT = 2, STORES_MOST = 8192 };

static uint8_t *region;                    /* whole pages; the table lies EDGE bytes in, apart from a page's beginning */
static uint32_t *table;
static size_t table_words = WORDS, watched = (WORDS * 4 + 2 * PAGE - 1) / PAGE * PAGE; /* of the form that is looked at: the table's words, and the bytes of its pages */
static uint8_t kept[REGION_MOST], stored[REGION_MOST];
static uint16_t times[REGION_MOST];             /* how often each byte was stored to */
static unsigned stores;                    /* how many instructions stored */
static size_t first_byte[STORES_MOST];     /* the first byte of each, from the table's beginning */
static volatile sig_atomic_t phase, watching;
static gregset_t registers;

static inline uint8_t pattern(size_t i, int which) { return (uint8_t)((i * 131 + (i >> 8) * 29 + 7) ^ (which == 1 ? 0x00 : 0xFF)); }

static void paint(int which) {
    for (size_t i = 0; i < watched; i++) region[i] = pattern(i, which);
}

static void see(int which) {
    for (size_t i = 0; i < watched; i++) stored[i] |= region[i] != pattern(i, which);
}

static void lost(const char *why) {
    printf("FAILED: %s\n", why);
    fflush(stdout);
    _Exit(2);
}

static void faulted(int number, siginfo_t *info, void *context) {
    (void)number;
    ucontext_t *at = context;
    const uint8_t *where = info->si_addr;
    if (!watching || phase != 0 || where < region || where >= region + watched || !(at->uc_mcontext.gregs[REG_ERR] & WRITE_FAULT)) lost("a fault that is no store into the table");
    memcpy(registers, at->uc_mcontext.gregs, sizeof registers);
    mprotect(region, watched, PROT_READ | PROT_WRITE);
    memcpy(kept, region, watched);
    memset(stored, 0, watched);
    paint(1);
    phase = 1;
    at->uc_mcontext.gregs[REG_EFL] |= TRAP_FLAG;
}

static void stepped(int number, siginfo_t *info, void *context) {
    (void)number, (void)info;
    ucontext_t *at = context;
    if (phase == 1 || phase == 2) {
        see(phase);
        if (phase == 1)
            paint(2);
        else
            memcpy(region, kept, watched);
        phase++;
        memcpy(at->uc_mcontext.gregs, registers, sizeof registers);
        at->uc_mcontext.gregs[REG_EFL] |= TRAP_FLAG;
        return;
    }
    if (phase != 3) lost("a trap that was not asked for");
    size_t first = watched;
    for (size_t i = watched; i-- > 0;)
        if (stored[i]) times[i]++, first = i;
    if (first == watched || stores == STORES_MOST) lost("a store that left no trace, or too many");
    first_byte[stores++] = first - EDGE;
    phase = 0;
    mprotect(region, watched, PROT_READ);
    at->uc_mcontext.gregs[REG_EFL] &= ~(greg_t)TRAP_FLAG;
}

static void watch_open(void) {
    static uint8_t stack[1 << 16];
    stack_t other = {.ss_sp = stack, .ss_size = sizeof stack};
    struct sigaction act = {.sa_flags = SA_SIGINFO | SA_ONSTACK};
    region = mmap(NULL, REGION_MOST, PROT_READ | PROT_WRITE, MAP_PRIVATE | MAP_ANONYMOUS, -1, 0);
    table = (uint32_t *)(region + EDGE);
    sigemptyset(&act.sa_mask);
    act.sa_sigaction = faulted;
    int wrong = region == MAP_FAILED || sigaltstack(&other, NULL) != 0 || sigaction(SIGSEGV, &act, NULL) != 0;
    act.sa_sigaction = stepped;
    if (wrong || sigaction(SIGTRAP, &act, NULL) != 0) lost("the watch could not be set up");
}

/* The form that is looked at from now on. */
static void watch_form(size_t form) {
    table_words = form, watched = (form * 4 + 2 * PAGE - 1) / PAGE * PAGE;
}

static void watch_begin(void) {
    memset(times, 0, sizeof times);
    stores = 0, phase = 0, watching = 1;
    mprotect(region, watched, PROT_READ);
}

static void watch_end(void) {
    mprotect(region, watched, PROT_READ | PROT_WRITE);
    watching = 0;
}

/* how often the bytes of a word were stored to: the most and the least of its four */
static unsigned most(size_t word) {
    unsigned m = 0;
    for (size_t i = 0; i < 4; i++) m = times[EDGE + 4 * word + i] > m ? times[EDGE + 4 * word + i] : m;
    return m;
}

static unsigned least(size_t word) {
    unsigned m = times[EDGE + 4 * word];
    for (size_t i = 1; i < 4; i++) m = times[EDGE + 4 * word + i] < m ? times[EDGE + 4 * word + i] : m;
    return m;
}

#endif
