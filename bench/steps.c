// Counts the instructions of a program between readings of the clock, by single steps: exact, whatever else the machine does.
//
// usage: steps OFFSET PROGRAM [ARGUMENT..]     OFFSET of `clock_gettime@plt` in PROGRAM, in hexadecimal
//
// The program reads the clock three times in a row, again and again. For each triple a line goes to standard error: how many
// instructions were between the first and second reading, and how many between the second and third. What the program prints is
// its own. The steps are those of one thread.
#define _GNU_SOURCE
#include <signal.h>
#include <stdio.h>
#include <stdlib.h>
#include <string.h>
#include <sys/personality.h>
#include <sys/ptrace.h>
#include <sys/user.h>
#include <sys/wait.h>
#include <unistd.h>

static pid_t child;
static unsigned long mark;
static long text;

static void fail(const char *what) {
    perror(what);
    if (child > 0) kill(child, 9);
    exit(1);
}

// Sets the breakpoint at the mark, or takes it away.
static void set(int on) {
    long word = on ? (text & ~0xffL) | 0xcc : text;
    if (ptrace(PTRACE_POKETEXT, child, mark, word)) fail("steps: write");
}

// Goes on in one way, and says whether the program still runs.
static int go(int how) {
    int status;
    if (ptrace(how, child, 0, 0)) fail("steps: go on");
    if (waitpid(child, &status, 0) < 0) fail("steps: wait");
    if (WIFEXITED(status) || WIFSIGNALED(status)) {
        if (!WIFEXITED(status) || WEXITSTATUS(status)) fprintf(stderr, "steps: the program failed\n"), exit(1);
        return 0;
    }
    return 1;
}

static struct user_regs_struct registers(void) {
    struct user_regs_struct r;
    if (ptrace(PTRACE_GETREGS, child, 0, &r)) fail("steps: registers");
    return r;
}

// Runs to the mark at full speed, and stops before its instruction.
static int run_to_mark(void) {
    set(1);
    if (!go(PTRACE_CONT)) return 0;
    struct user_regs_struct r = registers();
    if (r.rip != mark + 1) fprintf(stderr, "steps: stopped elsewhere\n"), exit(1);
    r.rip = mark;
    if (ptrace(PTRACE_SETREGS, child, 0, &r)) fail("steps: registers");
    set(0);
    return 1;
}

// Steps from the mark to the mark: how many instructions.
static long step_to_mark(void) {
    for (long n = 1;; n++) {
        if (!go(PTRACE_SINGLESTEP)) fprintf(stderr, "steps: ended within a turn\n"), exit(1);
        if (registers().rip == mark) return n;
    }
}

// Where the program lies.
static unsigned long base(void) {
    char path[64];
    snprintf(path, sizeof path, "/proc/%d/maps", child);
    FILE *maps = fopen(path, "r");
    unsigned long at = 0;
    if (!maps || fscanf(maps, "%lx", &at) != 1) fail("steps: maps");
    fclose(maps);
    return at;
}

int main(int argc, char **argv) {
    if (argc < 3) return 2;
    if ((child = fork()) < 0) fail("steps: fork");
    if (child == 0) {
        personality(ADDR_NO_RANDOMIZE);
        if (ptrace(PTRACE_TRACEME, 0, 0, 0)) _exit(1);
        execv(argv[2], argv + 2);
        _exit(1);
    }
    int status;
    if (waitpid(child, &status, 0) < 0 || !WIFSTOPPED(status)) fprintf(stderr, "steps: not traced\n"), exit(1);
    mark = base() + strtoul(argv[1], NULL, 16);
    text = ptrace(PTRACE_PEEKTEXT, child, mark, 0);
    while (run_to_mark()) {
        long nothing = step_to_mark();
        fprintf(stderr, "%ld %ld\n", nothing, step_to_mark());
        if (!go(PTRACE_SINGLESTEP)) break; // past the mark, for the next breakpoint
    }
    return 0;
}
