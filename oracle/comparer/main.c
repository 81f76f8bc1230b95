/* The main of the comparer and, with another ENTRY, of the benchmark: it knows which functions the product's library has, and says where it was when a call does not come back.
   A function that the library does not have is a null pointer here (a weak symbol that nothing defines). */
#include <signal.h>
#include <stdio.h>
#include <stdlib.h>
#include <unistd.h>

/* In the order of `Library` in src/library.rs. */
#define CALLS(CALL) \
    CALL(mesh_number) CALL(face) CALL(remove_unused_attrs) CALL(remove_degenerate_faces) CALL(put_together_same_attrs) \
    CALL(shell_condition) CALL(hem_edges) CALL(extract_boundaries) CALL(house_wires) CALL(components) CALL(read_panel) \
    CALL(write_panel) CALL(clean_panel) CALL(sheet) CALL(push) CALL(loop_subdivision) CALL(read_scan) \
    CALL(scan_sheet) CALL(put_together_by_cell) CALL(compact_in_place) CALL(list_hems) CALL(hem_sheet)

#define DECLARE(name) extern void bh_##name(void) __attribute__((weak));
#define FIELD(name) void (*name)(void);
#define PLACE(name) bh_##name,

CALLS(DECLARE)
struct library { CALLS(FIELD) };
typedef void watch(const char *call, unsigned long long index);

/* The program itself. */
#ifndef ENTRY
#define ENTRY compare
#endif
extern int ENTRY(struct library library, watch *watch, int argc, char **argv);

#ifdef PAD
/* Moves what is linked behind this file: see ./bench. */
__asm__(".text\n.skip " PAD);
#endif

/* How long one mesh may take, in seconds. */
enum { PATIENCE = 900 };

static char now_call[64];
static volatile unsigned long long now_index = -1ULL;

static void note(const char *call, unsigned long long index) {
    snprintf(now_call, sizeof now_call, "%s", call);
    if (index != now_index) {
        now_index = index;
        alarm(PATIENCE);
    }
}

static void died(int signal) {
    char text[160];
    int length = snprintf(text, sizeof text, "DIFFERENCE in %s, at index %llu: the call did not come back (signal %d)\n",
                          now_call, now_index, signal);
    if (write(1, text, length) < 0) {
        _exit(4);
    }
    _exit(3);
}

int main(int argc, char **argv) {
    struct library library = { CALLS(PLACE) };
    const int signals[] = { SIGSEGV, SIGBUS, SIGILL, SIGFPE, SIGABRT, SIGALRM };
    for (unsigned i = 0; i < sizeof signals / sizeof *signals; i++) {
        signal(signals[i], died);
    }
    setvbuf(stdout, NULL, _IOLBF, 0);
    return ENTRY(library, note, argc, argv);
}
