// Runs the circuit beside the machine, clock by clock. The standard input is what `jop trace --micro` puts; the file INPUT has the bytes of the
// program's input. Each line of registers is compared with the registers of the circuit before the clock, and each byte that is written with the
// byte that the circuit puts. The first difference ends it with status 1. Else the last line is `halted=H hits=T misses=M clocks=N`.
#include <cstdio>
#include <cstdlib>
#include <cstring>
#include <string>
#include <vector>
#include "Vjop.h"
#include "Vjop___024root.h"

// The registers by their numbers in the text, as machine_circuit makes them.
#define A jop__DOT__r0
#define B jop__DOT__r1
#define SP jop__DOT__r2
#define VP jop__DOT__r3
#define MPC jop__DOT__r6
#define WORD jop__DOT__r10
#define REFILL jop__DOT__r11
#define HEADER jop__DOT__r24
#define LEFT jop__DOT__r25

// the word of `stbc`
static const unsigned STBC = 41;

struct Line {
    unsigned long long clock;
    unsigned mpc, a, b, sp, vp;
};

static Vjop *circuit;
static std::vector<unsigned char> input;
static size_t taken = 0;
static int put = -1;
static unsigned long long clocks = 0, switches = 0, misses = 0;

static int fail(const char *what, const char *wanted) {
    Vjop___024root *r = circuit->rootp;
    printf("clock %llu: %s: wanted %s", clocks, what, wanted);
    printf("came %llu %03x %08x %08x %03x %03x\n", clocks, r->MPC, r->A, r->B, r->SP, r->VP);
    return 1;
}

// one clock, with the next byte of the input where there is one
static void clocked() {
    bool is_valid = taken < input.size();
    circuit->in_valid = is_valid;
    circuit->in_data = is_valid ? input[taken] : 0xa5;
    circuit->eval();
    if (circuit->in_take && is_valid)
        taken++;
    put = circuit->out_put ? circuit->out_data : -1;
    circuit->clk = 1;
    circuit->eval();
    circuit->clk = 0;
    circuit->eval();
}

static bool agrees(const Line &l) {
    Vjop___024root *r = circuit->rootp;
    return l.clock == clocks && l.mpc == r->MPC && l.a == r->A && l.b == r->B && l.sp == r->SP && l.vp == r->VP;
}

// counts the look-ups of this clock, and the misses of the one before
static void count_switches() {
    Vjop___024root *r = circuit->rootp;
    switches += r->WORD == STBC && r->REFILL == 0 && r->HEADER == 0 && r->LEFT == 0;
    misses += r->HEADER == 4;
}

// a line of the trace; 0 where it agrees
static int compare(const char *line) {
    Line l;
    unsigned byte;
    if (strncmp(line, "write ", 6) == 0) {
        bool same = sscanf(line + 6, "%x", &byte) == 1 && put == (int)byte;
        put = -1;
        return same ? 0 : fail("byte", line);
    }
    if (strstr(line, " frames="))
        return 0;
    if (sscanf(line, "%llu %x %x %x %x %x", &l.clock, &l.mpc, &l.a, &l.b, &l.sp, &l.vp) != 6)
        return fail("line", line);
    if (put >= 0)
        return fail("a byte was put before", line);
    if (!agrees(l) || circuit->halted)
        return fail("registers", line);
    count_switches();
    clocked();
    clocks++;
    return 0;
}

static void read_input(const char *name) {
    FILE *file = fopen(name, "rb");
    for (int c; (c = fgetc(file)) != EOF;)
        input.push_back(c);
    fclose(file);
}

int main(int count, char **words) {
    Verilated::commandArgs(count, words);
    circuit = new Vjop;
    read_input(words[1]);
    circuit->clk = 0;
    circuit->eval();
    // the start
    clocked();
    char line[4096];
    while (fgets(line, sizeof line, stdin))
        if (compare(line))
            return 1;
    if (put >= 0)
        return fail("a byte was put at the end", "nothing, ");
    misses += circuit->rootp->HEADER == 4;
    printf("halted=%d hits=%llu misses=%llu clocks=%llu\n", circuit->halted, switches - misses, misses, clocks);
    return 0;
}
