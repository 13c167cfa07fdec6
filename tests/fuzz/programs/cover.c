/* cover STATE PROGRAM [ARGUMENT]..: runs a program, and notes in STATE which of its blocks are reached for the first time.
 *
 * The program isn't instrumented. A breakpoint stands at the start of each block that no run has reached; it goes once it is hit. STATE
 * has two numbers of 8 bytes, how many blocks there are and how many of them this run was the first to reach. Then it has two numbers of
 * 4 bytes for each block: its address in the program's file, and 1 once it was reached. The status is the program's own, and a signal
 * that ends the program ends this one too. */
#define _GNU_SOURCE
#include <fcntl.h>
#include <signal.h>
#include <stdint.h>
#include <stdio.h>
#include <stdlib.h>
#include <string.h>
#include <sys/mman.h>
#include <sys/personality.h>
#include <sys/ptrace.h>
#include <sys/stat.h>
#include <sys/user.h>
#include <sys/wait.h>
#include <unistd.h>

struct block {
    uint32_t address, reached;
};

struct state {
    uint64_t count, fresh;
    struct block blocks[];
};

static const unsigned char BREAKPOINT = 0xCC;

static void stop(const char *what) {
    perror(what);
    exit(250);
}

static struct state *state_of(const char *path) {
    struct stat found;
    int file = open(path, O_RDWR);
    if (file < 0 || fstat(file, &found) != 0)
        stop(path);
    struct state *state = mmap(NULL, (size_t)found.st_size, PROT_READ | PROT_WRITE, MAP_SHARED, file, 0);
    if (state == MAP_FAILED)
        stop(path);
    close(file);
    return state;
}

static pid_t start(char **words) {
    pid_t child = fork();
    if (child < 0)
        stop("fork");
    if (child == 0) {
        personality(ADDR_NO_RANDOMIZE);
        ptrace(PTRACE_TRACEME, 0, NULL, NULL);
        execv(words[0], words);
        stop(words[0]);
    }
    return child;
}

/* Where the first part of the program is mapped. */
static uint64_t base_of(pid_t child) {
    char path[64];
    unsigned long base = 0;
    snprintf(path, sizeof path, "/proc/%d/maps", (int)child);
    FILE *maps = fopen(path, "r");
    if (!maps || fscanf(maps, "%lx-", &base) != 1)
        stop(path);
    fclose(maps);
    return base;
}

static int memory_of(pid_t child) {
    char path[64];
    snprintf(path, sizeof path, "/proc/%d/mem", (int)child);
    int memory = open(path, O_RDWR);
    if (memory < 0)
        stop(path);
    return memory;
}

/* The code from the first block to the last one, as it is without breakpoints. */
static unsigned char *set_breakpoints(const struct state *state, int memory, uint64_t base) {
    uint32_t first = state->blocks[0].address, last = state->blocks[state->count - 1].address;
    size_t size = last - first + 1;
    unsigned char *kept = malloc(size), *changed = malloc(size);
    if (!kept || !changed || pread(memory, kept, size, (off_t)(base + first)) != (ssize_t)size)
        stop("the code");
    memcpy(changed, kept, size);
    for (uint64_t it = 0; it < state->count; ++it)
        if (!state->blocks[it].reached)
            changed[state->blocks[it].address - first] = BREAKPOINT;
    if (pwrite(memory, changed, size, (off_t)(base + first)) != (ssize_t)size)
        stop("the breakpoints");
    free(changed);
    return kept;
}

static struct block *block_at(struct state *state, uint64_t address) {
    uint64_t low = 0, high = state->count;
    while (low < high) {
        uint64_t middle = (low + high) / 2;
        if (state->blocks[middle].address < address)
            low = middle + 1;
        else
            high = middle;
    }
    return low < state->count && state->blocks[low].address == address ? &state->blocks[low] : NULL;
}

/* Whether the child stands after a breakpoint, which is then taken away. */
static int take_away(struct state *state, pid_t child, int memory, uint64_t base, const unsigned char *kept) {
    struct user_regs_struct registers;
    ptrace(PTRACE_GETREGS, child, NULL, &registers);
    struct block *block = block_at(state, registers.rip - 1 - base);
    if (!block)
        return 0;
    uint64_t at = base + block->address;
    if (pwrite(memory, &kept[block->address - state->blocks[0].address], 1, (off_t)at) != 1)
        stop("a breakpoint");
    block->reached = 1;
    state->fresh += 1;
    registers.rip = at;
    ptrace(PTRACE_SETREGS, child, NULL, &registers);
    return 1;
}

int main(int count, char **words) {
    int status;
    if (count < 3) {
        fprintf(stderr, "usage: cover STATE PROGRAM [ARGUMENT]..\n");
        return 250;
    }
    struct state *state = state_of(words[1]);
    state->fresh = 0;
    pid_t child = start(words + 2);
    if (waitpid(child, &status, 0) != child || !WIFSTOPPED(status))
        return 250;
    ptrace(PTRACE_SETOPTIONS, child, NULL, PTRACE_O_EXITKILL);
    int memory = memory_of(child);
    uint64_t base = base_of(child);
    unsigned char *kept = set_breakpoints(state, memory, base);
    int given = 0;
    for (;;) {
        ptrace(PTRACE_CONT, child, NULL, given);
        if (waitpid(child, &status, 0) != child)
            return 250;
        if (!WIFSTOPPED(status))
            break;
        given = WSTOPSIG(status);
        if (given == SIGTRAP && take_away(state, child, memory, base, kept))
            given = 0;
    }
    if (WIFEXITED(status))
        return WEXITSTATUS(status);
    signal(WTERMSIG(status), SIG_DFL);
    raise(WTERMSIG(status));
    return 251;
}
