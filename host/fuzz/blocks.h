/* Which blocks of the archive's machine code have been reached. The archive is compiled without counters for a fuzzer, so a breakpoint is
 * put on the first instruction of each block; the first time it is met the instruction comes back and the block's counter is set. After
 * that the block costs nothing. The blocks stand in a file beside the program, with the name of the program and ".blocks" (host/fuzz/blocks
 * writes it): an address a line. x86-64 Linux alone; elsewhere, and without the file, the fuzzer is steered by what it sees outside. */
#ifndef BLOCKS_H
#define BLOCKS_H

#include <signal.h>
#include <stdint.h>
#include <stdio.h>
#include <stdlib.h>
#include <string.h>
#include <sys/mman.h>
#include <ucontext.h>
#include <unistd.h>

enum { MOST_BLOCKS = 8192, BREAKPOINT = 0xcc };

/* libFuzzer clears what is declared so before an input and looks at it after it; no code here reads it. */
#define COUNTERS __attribute__((used, section("__libfuzzer_extra_counters"))) static volatile
COUNTERS uint8_t block_met[MOST_BLOCKS];

static struct {
    uint8_t *at;
    uint8_t first; /* of the instruction */
    uint8_t reached;
} block[MOST_BLOCKS];
static size_t blocks;

static void block_reached(int number, siginfo_t *info, void *context) {
    (void)number;
    (void)info;
#if defined(__x86_64__)
    greg_t *next = &((ucontext_t *)context)->uc_mcontext.gregs[REG_RIP];
    uint8_t *at = (uint8_t *)*next - 1;
    size_t low = 0, high = blocks;
    while (low < high) {
        size_t middle = (low + high) / 2;
        if (block[middle].at < at) low = middle + 1;
        else high = middle;
    }
    if (low == blocks || block[low].at != at) abort();
    *at = block[low].first;
    block[low].reached = 1;
    block_met[low] = 1;
    *next = (greg_t)at;
#else
    (void)context;
#endif
}

/* At the end: how many were reached, and with FUZZ_UNREACHED in the environment which were not. */
static void blocks_told(void) {
    size_t reached = 0;
    for (size_t k = 0; k < blocks; k++) reached += block[k].reached;
    if (blocks == 0) return;
    fprintf(stderr, "blocks of the archive reached: %zu of %zu\n", reached, blocks);
    if (!getenv("FUZZ_UNREACHED")) return;
    for (size_t k = 0; k < blocks; k++) {
        if (!block[k].reached) fprintf(stderr, "not reached: %zx\n", (size_t)block[k].at);
    }
}

static void blocks_begin(const char *program) {
#if defined(__x86_64__)
    char name[4096];
    unsigned long long at;
    snprintf(name, sizeof name, "%s.blocks", program);
    FILE *list = fopen(name, "r");
    if (!list) {
        fprintf(stderr, "no list of blocks: steered by answers alone\n");
        return;
    }
    while (blocks < MOST_BLOCKS && fscanf(list, "%llx", &at) == 1) block[blocks++].at = (uint8_t *)(uintptr_t)at;
    fclose(list);
    if (blocks == 0) return;
    uintptr_t page = (uintptr_t)sysconf(_SC_PAGESIZE), low = (uintptr_t)block[0].at & ~(page - 1);
    if (mprotect((void *)low, (uintptr_t)block[blocks - 1].at + 1 - low, PROT_READ | PROT_WRITE | PROT_EXEC) != 0) {
        fprintf(stderr, "code cannot be written here: steered by answers alone\n");
        blocks = 0;
        return;
    }
    struct sigaction action;
    memset(&action, 0, sizeof action);
    action.sa_sigaction = block_reached;
    action.sa_flags = SA_SIGINFO;
    sigaction(SIGTRAP, &action, NULL);
    for (size_t k = 0; k < blocks; k++) {
        block[k].first = *block[k].at;
        *block[k].at = BREAKPOINT;
    }
    atexit(blocks_told);
#else
    (void)program;
#endif
}

#endif
