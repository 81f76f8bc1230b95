/* How much stack each call of the library needs: tools/stack builds and runs it over panel files and scans and takes what it prints,
   'NAME KB BYTES FILE' for each call.

   Found by trying: KB, of 1,024 bytes, is the smallest stack on which the call still works on every file. A call runs in a process of
   its own, on a stack of just that size with a page below it that nobody may touch; one that is too small ends that process.

   Where the trying begins is found by painting: a call runs on a large stack that was painted, and the lowest byte that is no longer paint
   shows how deep it went, BYTES, on the FILE that took it deepest. Each file is painted twice, in two colours, since a byte that was written
   may have one of them. */
#include "barleyhinge.h"
#include <stdio.h>
#include <stdlib.h>
#include <string.h>
#include <sys/mman.h>
#include <sys/resource.h>
#include <sys/wait.h>
#include <ucontext.h>
#include <unistd.h>

enum { STACK = 4 << 20, LONGEST_FILE = 1 << 20, KB = 1024, PAGE = 4096, COUNT_BYTES = 4, TRIPLE_BYTES = 12 };

struct mesh {
    double positions[3 * BH_MAX_ENTRIES], textures[2 * BH_MAX_ENTRIES], normals[3 * BH_MAX_ENTRIES];
    uint32_t corners[BH_CORNER_WIDTH * BH_MAX_CORNERS], sizes[BH_MAX_FACES];
    size_t counts[5];
};

#define LISTS \
    mesh.positions, 3 * mesh.counts[0], mesh.textures, 2 * mesh.counts[1], mesh.normals, 3 * mesh.counts[2], mesh.corners, \
        BH_CORNER_WIDTH * mesh.counts[3], mesh.sizes, mesh.counts[4]
#define ROOM(list) list, sizeof list / sizeof *list

static struct mesh mesh, made, copied; /* copied: for a call that changes the mesh */
static int32_t triples[3 * BH_MAX_ENTRIES]; /* every position at one place */
static uint32_t numbers[BH_MAX_ENTRIES], origins[BH_MAX_FACES], flat[2 * BH_MAX_CORNERS], lengths[BH_MAX_CORNERS], verdict;
static uint8_t file[LONGEST_FILE], text[BH_SHEET_ROOM], written[BH_FILE_ROOM];
static uint64_t measures[BH_MAX_CORNERS];
static uint8_t hem_file[COUNT_BYTES + LONGEST_FILE + TRIPLE_BYTES * BH_MAX_ENTRIES], hem_text[BH_HEM_ROOM];
static size_t hem_len;
static double ones[BH_COSINES], twos[BH_COSINES];
static size_t file_len, a, b, c;

static void reading(void) {
    bh_read_panel(file, file_len, ROOM(mesh.positions), ROOM(mesh.textures), ROOM(mesh.normals), ROOM(mesh.corners), ROOM(mesh.sizes),
                  &mesh.counts[0], &mesh.counts[1], &mesh.counts[2], &mesh.counts[3], &mesh.counts[4]);
}
static void scanning(void) {
    bh_read_scan(file, file_len, ROOM(made.positions), ROOM(made.textures), ROOM(made.normals), ROOM(made.corners), ROOM(made.sizes),
                 &made.counts[0], &made.counts[1], &made.counts[2], &made.counts[3], &made.counts[4]);
}
static void number(void) { bh_mesh_number(LISTS); }
static void face(void) { bh_face(LISTS, mesh.counts[4] - 1, &a, &b); }
static void push(void) { bh_push(mesh.corners, BH_CORNER_WIDTH * mesh.counts[3], mesh.sizes, mesh.counts[4], ROOM(made.corners), ROOM(made.sizes), &a, &b); }
static void compaction(void) {
    bh_remove_unused_attrs(LISTS, ROOM(made.corners), ROOM(made.positions), ROOM(made.textures), ROOM(made.normals), &a, &b, &c);
}
static void in_place(void) {
    copied = mesh;
    bh_compact_in_place(copied.positions, 3 * copied.counts[0], copied.textures, 2 * copied.counts[1], copied.normals, 3 * copied.counts[2], copied.corners,
                        BH_CORNER_WIDTH * copied.counts[3], copied.sizes, copied.counts[4], ROOM(numbers), &a, &b, &c);
}
static void removal(void) { bh_remove_degenerate_faces(LISTS, ROOM(made.corners), ROOM(made.sizes), ROOM(origins), &a, &b); }
static void merging(void) { bh_put_together_same_attrs(LISTS, 0.125, ROOM(made.corners), &a, &b, &c); }
static void by_cell(void) { bh_put_together_by_cell(LISTS, 0.125, ROOM(made.corners), &a, &b, &c); }
static void smoothing(void) {
    bh_loop_subdivision(LISTS, ROOM(ones), ROOM(twos), ROOM(made.positions), ROOM(made.corners), ROOM(made.sizes), &a, &b, &c);
}
static void condition(void) { bh_shell_condition(LISTS, &verdict); }
static void hems(void) { bh_hem_edges(LISTS, ROOM(flat), ROOM(lengths), &a); }
static void ported(void) { bh_extract_boundaries(LISTS, ROOM(flat), ROOM(lengths), &a, &b); }
static void house(void) { bh_house_wires(LISTS, ROOM(flat), ROOM(lengths), &a, &b); }
static void panels(void) { bh_components(LISTS, true, ROOM(flat), ROOM(lengths), &a, &b); }
static void listing(void) { bh_list_hems(LISTS, triples, 3 * mesh.counts[0], ROOM(flat), ROOM(lengths), ROOM(measures), &a); }
static void writing(void) { bh_write_panel(LISTS, ROOM(written), &a); }
static void cleaning(void) { bh_clean_panel(file, file_len, ROOM(written), &a); }
static void hem_sheet(void) { bh_hem_sheet(hem_file, hem_len, ROOM(hem_text), &a); }
static void sheet(void) { bh_sheet(file, file_len, ROOM(text), &a); }

static struct { const char *name; void (*call)(void); size_t deepest, on; } calls[] = {
    {"bh_mesh_number", number, 0, 0},
    {"bh_face", face, 0, 0},
    {"bh_push", push, 0, 0},
    {"bh_remove_unused_attrs", compaction, 0, 0},
    {"bh_compact_in_place", in_place, 0, 0},
    {"bh_remove_degenerate_faces", removal, 0, 0},
    {"bh_put_together_same_attrs", merging, 0, 0},
    {"bh_put_together_by_cell", by_cell, 0, 0},
    {"bh_loop_subdivision", smoothing, 0, 0},
    {"bh_shell_condition", condition, 0, 0},
    {"bh_hem_edges", hems, 0, 0},
    {"bh_extract_boundaries", ported, 0, 0},
    {"bh_house_wires", house, 0, 0},
    {"bh_components", panels, 0, 0},
    {"bh_list_hems", listing, 0, 0},
    {"bh_read_panel", reading, 0, 0},
    {"bh_read_scan", scanning, 0, 0},
    {"bh_write_panel", writing, 0, 0},
    {"bh_clean_panel", cleaning, 0, 0},
    {"bh_sheet", sheet, 0, 0},
    {"bh_hem_sheet", hem_sheet, 0, 0},
};
enum { CALLS = sizeof calls / sizeof *calls };

/* The file as the hem sheet takes it: its count, itself, and a triple for each position, every one at one place. */
static void put_hem_file(void) {
    size_t triples_len = TRIPLE_BYTES * mesh.counts[0];
    for (size_t i = 0; i < COUNT_BYTES; i++) {
        hem_file[i] = (uint8_t)(file_len >> (8 * i));
    }
    memcpy(hem_file + COUNT_BYTES, file, file_len);
    memset(hem_file + COUNT_BYTES + file_len, 0, triples_len);
    hem_len = COUNT_BYTES + file_len + triples_len;
}

/* The file, and the mesh of those calls that take one. */
static void open_file(const char *name) {
    FILE *from = fopen(name, "rb");
    if (from == NULL) {
        perror(name);
        exit(2);
    }
    file_len = fread(file, 1, sizeof file, from);
    fclose(from);
    memset(mesh.counts, 0, sizeof mesh.counts);
    reading();
    put_hem_file();
}

/* A call on a stack of its own. */
static ucontext_t here, there;
static void (*called)(void);
static unsigned char *top;

static void run(void) {
    unsigned char first;
    top = &first;
    called();
}

static void call_on(unsigned char *stack, size_t size, void (*call)(void)) {
    called = call;
    if (getcontext(&there) != 0) {
        exit(2);
    }
    there.uc_stack.ss_sp = stack;
    there.uc_stack.ss_size = size;
    there.uc_link = &here;
    makecontext(&there, run, 0);
    if (swapcontext(&here, &there) != 0) {
        exit(2);
    }
}

static size_t depth(unsigned char *stack, void (*call)(void), int colour) {
    memset(stack, colour, STACK);
    call_on(stack, STACK, call);
    for (size_t i = 0; i < STACK; i++) {
        if (stack[i] != colour) {
            return (size_t)(top - (stack + i));
        }
    }
    return 0;
}

/* Whether a call works on every file with so many KB. What lies below the stack may not be touched. */
static bool works(size_t k, size_t size, int count, char **names) {
    fflush(stdout);
    pid_t child = fork();
    if (child < 0) {
        exit(2);
    }
    if (child == 0) {
        struct rlimit none = {0, 0};
        setrlimit(RLIMIT_CORE, &none);
        size_t pages = (size * KB + PAGE - 1) / PAGE * PAGE;
        unsigned char *room = mmap(NULL, STACK + pages, PROT_NONE, MAP_PRIVATE | MAP_ANONYMOUS, -1, 0);
        if (room == MAP_FAILED || mprotect(room + STACK, pages, PROT_READ | PROT_WRITE) != 0) {
            _exit(2);
        }
        if (freopen("/dev/null", "w", stderr) == NULL) {
            _exit(2);
        }
        for (int i = 0; i < count; i++) {
            open_file(names[i]);
            call_on(room + STACK, size * KB, calls[k].call);
        }
        _exit(0);
    }
    int status;
    if (waitpid(child, &status, 0) != child || (WIFEXITED(status) && WEXITSTATUS(status) != 0)) {
        fputs("stack: could not try\n", stderr);
        exit(2);
    }
    return WIFEXITED(status);
}

int main(int count, char **names) {
    unsigned char *stack = mmap(NULL, STACK, PROT_READ | PROT_WRITE, MAP_PRIVATE | MAP_ANONYMOUS, -1, 0);
    if (stack == MAP_FAILED) {
        return 2;
    }
    for (int i = 1; i < count; i++) {
        open_file(names[i]);
        for (size_t k = 0; k < CALLS; k++) {
            for (int colour = 0x5a; colour <= 0xa5; colour += 0xa5 - 0x5a) {
                size_t deep = depth(stack, calls[k].call, colour);
                if (deep > calls[k].deepest) {
                    calls[k].deepest = deep;
                    calls[k].on = (size_t)i;
                }
            }
        }
    }
    for (size_t k = 0; k < CALLS; k++) {
        size_t size = (calls[k].deepest + KB - 1) / KB;
        while (!works(k, size, count - 1, names + 1)) {
            size++;
        }
        while (size > 1 && works(k, size - 1, count - 1, names + 1)) {
            size--;
        }
        printf("%s %zu %zu %s\n", calls[k].name, size, calls[k].deepest, names[calls[k].on]);
    }
    return 0;
}
