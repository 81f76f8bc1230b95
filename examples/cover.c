/* The library tried from C: reads a panel file from standard input, cleans it and prints its sheet, as document 01 has it; then a line
   from each call that the sheet does not need, the cleaned cover as a panel file among them. A refusal prints 'refused' and its number. Last
   comes the sheet again, from the one call that makes all of it. One byte more than a file may have is read, so that a longer one is refused and not cut.
   With any word after its name it reads a scan, a binary STL file, and goes on with the panel file of the scan's mesh.
   rust/barleyhinge/examples/cover.rs is the same from Rust; tools/try_library builds and runs both. */
#include "barleyhinge.h"
#include <inttypes.h>
#include <math.h>
#include <stdio.h>
#include <string.h>

/* A mesh at the full limits. */
struct mesh {
    double positions[3 * BH_MAX_ENTRIES], textures[2 * BH_MAX_ENTRIES], normals[3 * BH_MAX_ENTRIES];
    uint32_t corners[BH_CORNER_WIDTH * BH_MAX_CORNERS], sizes[BH_MAX_FACES];
    size_t positioncount, texturecount, normalcount, cornercount, facecount;
};

/* The five lists of a mesh, as every call on a mesh takes them. */
#define LISTS(m) \
    (m)->positions, 3 * (m)->positioncount, (m)->textures, 2 * (m)->texturecount, (m)->normals, 3 * (m)->normalcount, \
    (m)->corners, BH_CORNER_WIDTH * (m)->cornercount, (m)->sizes, (m)->facecount
/* A lent list: where it is, and its whole length. */
#define ROOM(list) list, sizeof list / sizeof *list

static struct mesh drawn, left, clean;
static uint32_t origins[BH_MAX_FACES], flat[2 * BH_MAX_CORNERS], lengths[BH_MAX_CORNERS];

/* Makes of a scan the panel file of its mesh, in the same place, which has room for every one; the number of the refusal, or 0. */
static uint32_t from_scan(uint8_t *file, size_t *length) {
    uint32_t number = bh_read_scan(
        file, *length, ROOM(drawn.positions), ROOM(drawn.textures), ROOM(drawn.normals), ROOM(drawn.corners), ROOM(drawn.sizes),
        &drawn.positioncount, &drawn.texturecount, &drawn.normalcount, &drawn.cornercount, &drawn.facecount);
    return number == BH_DONE ? bh_write_panel(LISTS(&drawn), file, BH_FILE_ROOM, length) : number;
}

/* Reads, removes folded faces, compacts; the number of the first refusal, or 0. Face k of the clean cover came from drawn face origins[k]. */
static uint32_t draw(const uint8_t *file, size_t file_len) {
    if (file_len > BH_MAX_FILE) {
        return BH_OVER_LIMIT;
    }
    uint32_t number = bh_read_panel(
        file, file_len, ROOM(drawn.positions), ROOM(drawn.textures), ROOM(drawn.normals), ROOM(drawn.corners), ROOM(drawn.sizes),
        &drawn.positioncount, &drawn.texturecount, &drawn.normalcount, &drawn.cornercount, &drawn.facecount);
    if (number != BH_DONE) {
        return number;
    }
    left = drawn;
    number = bh_remove_degenerate_faces(
        LISTS(&drawn), ROOM(left.corners), ROOM(left.sizes), ROOM(origins), &left.cornercount, &left.facecount);
    if (number != BH_DONE) {
        return number;
    }
    clean = left;
    return bh_remove_unused_attrs(
        LISTS(&left), ROOM(clean.corners), ROOM(clean.positions), ROOM(clean.textures), ROOM(clean.normals),
        &clean.positioncount, &clean.texturecount, &clean.normalcount);
}

static void print_row(const char *name, const uint32_t *row, size_t length) {
    printf("%s", name);
    for (size_t k = 0; k < length; k++) {
        printf(" %u", row[k]);
    }
    printf("\n");
}

static void print_rows(const char *name, size_t rows) {
    const uint32_t *at = flat;
    for (size_t i = 0; i < rows; i++) {
        print_row(name, at, lengths[i]);
        at += lengths[i];
    }
}

static void print_sheet(void) {
    uint32_t verdict = 0;
    size_t numbers, rows;
    bh_shell_condition(LISTS(&clean), &verdict);
    bh_components(LISTS(&clean), false, ROOM(flat), ROOM(lengths), &numbers, &rows);
    printf("mesh %zu %zu %zu %zu\n", clean.positioncount, clean.texturecount, clean.normalcount, clean.facecount);
    printf("verdict %s\npanels %zu\n", bh_verdict_text(verdict), rows);
    uint32_t number = bh_house_wires(LISTS(&clean), ROOM(flat), ROOM(lengths), &numbers, &rows);
    if (number != BH_DONE) {
        printf("hems refused %u\n", number);
    }
    print_rows("hem", rows);
}

/* The faces in the opposite order, so that larger ones come first, and a face of no corners; grouped again, in 'left'. */
static void print_turned(void) {
    static uint32_t corners[BH_CORNER_WIDTH * BH_MAX_CORNERS], sizes[BH_MAX_FACES];
    size_t start, len, at = 0, faces = 0;
    for (size_t k = clean.facecount; k > 0; k--) {
        bh_face(LISTS(&clean), k - 1, &start, &len);
        memcpy(corners + at, clean.corners + start, len * sizeof *corners);
        at += len;
        sizes[faces++] = clean.sizes[k - 1];
    }
    if (faces < BH_MAX_FACES) {
        sizes[faces++] = 0;
    }
    bh_push(corners, at, sizes, faces, ROOM(left.corners), ROOM(left.sizes), &left.cornercount, &left.facecount);
    printf("grouped %zu of %zu\n", left.cornercount, left.facecount);
}

/* Whether a list holds the entries that are kept, and zero bits in the room behind them. */
static bool is_compacted(const double *list, const double *kept, size_t keptlength, size_t length) {
    static const double zeros[3 * BH_MAX_ENTRIES];
    return memcmp(list, kept, keptlength * sizeof *list) == 0 && memcmp(list + keptlength, zeros, (length - keptlength) * sizeof *list) == 0;
}

/* What the removal left compacted once more, in its own lists: first with a number list that is one short, by which nothing may move, then with
   one that is not. It must be the clean cover. */
static void print_in_place(void) {
    static struct mesh moved;
    static uint32_t numbers[BH_MAX_ENTRIES];
    size_t longest = left.positioncount > left.texturecount ? left.positioncount : left.texturecount, counts[3];
    longest = left.normalcount > longest ? left.normalcount : longest;
    moved = left;
    bool refused = longest == 0 || bh_compact_in_place(LISTS(&moved), numbers, longest - 1, &counts[0], &counts[1], &counts[2]) == BH_ROOM;
    bool kept = memcmp(&moved, &left, sizeof left) == 0;
    uint32_t number = bh_compact_in_place(LISTS(&moved), numbers, longest, &counts[0], &counts[1], &counts[2]);
    bool same = counts[0] == clean.positioncount && counts[1] == clean.texturecount && counts[2] == clean.normalcount
        && is_compacted(moved.positions, clean.positions, 3 * counts[0], 3 * left.positioncount)
        && is_compacted(moved.textures, clean.textures, 2 * counts[1], 2 * left.texturecount)
        && is_compacted(moved.normals, clean.normals, 3 * counts[2], 3 * left.normalcount)
        && memcmp(moved.corners, clean.corners, BH_CORNER_WIDTH * clean.cornercount * sizeof *clean.corners) == 0;
    printf("in place %u%s\n", number, same && refused && kept ? ", the same" : "");
}

static void print_more(void) {
    size_t start, len, numbers, rows, pairs[3];
    printf("number %u\n", bh_mesh_number(LISTS(&clean)));
    bh_face(LISTS(&clean), clean.facecount - 1, &start, &len);
    printf("last face %zu %zu\n", start, len);
    print_turned();
    bh_hem_edges(LISTS(&clean), ROOM(flat), ROOM(lengths), &rows);
    printf("hem edges %zu\n", rows);
    bh_extract_boundaries(LISTS(&clean), ROOM(flat), ROOM(lengths), &numbers, &rows);
    print_rows("ported", rows);
    uint32_t number = bh_put_together_same_attrs(LISTS(&clean), 0.125, ROOM(left.corners), &pairs[0], &pairs[1], &pairs[2]);
    printf("merging %u pairs %zu %zu %zu\n", number, pairs[0], pairs[1], pairs[2]);
    number = bh_put_together_same_attrs(LISTS(&clean), 2.0, ROOM(left.corners), &pairs[0], &pairs[1], &pairs[2]);
    printf("merging %u pairs %zu %zu %zu\n", number, pairs[0], pairs[1], pairs[2]);
}

/* The cleaned cover as a panel file, by a buffer that is one byte short and by one that is not; and the file cleaned by the one call that
   does all of it, which must be the same. */
static void print_written(const uint8_t *file, size_t file_len) {
    static uint8_t written[BH_FILE_ROOM], cleaned[BH_FILE_ROOM];
    size_t length, bytes;
    uint32_t number = bh_write_panel(LISTS(&clean), ROOM(written), &length);
    printf("written %u bytes %zu\n", number, length);
    bool refused = bh_write_panel(LISTS(&clean), written, length - 1, &bytes) == BH_ROOM && bytes == 0;
    number = bh_clean_panel(file, file_len, ROOM(cleaned), &bytes);
    bool same = bytes == length && memcmp(cleaned, written, length) == 0;
    printf("cleaned %u bytes %zu%s\n", number, bytes, same && refused ? ", the same" : "");
}

/* The cleaned cover with one more position that is not finite, and that no corner uses: it is a mesh, and no file is made of it. */
static void print_broken(void) {
    static uint8_t written[BH_FILE_ROOM];
    size_t length;
    if (clean.positioncount < BH_MAX_ENTRIES) {
        double broken[3] = {0.0, HUGE_VAL, 0.0};
        memcpy(clean.positions + 3 * clean.positioncount, broken, sizeof broken);
        clean.positioncount++;
        uint32_t number = bh_mesh_number(LISTS(&clean)), refusal = bh_write_panel(LISTS(&clean), ROOM(written), &length);
        printf("broken %u written %u: %s\n", number, refusal, bh_text(refusal));
    }
}

/* A number of 32 bits in four bytes, the lowest first. */
static void put_number(uint8_t *at, uint32_t number) {
    for (int k = 0; k < 4; k++) {
        at[k] = (uint8_t)(number >> 8 * k);
    }
}

/* The hems of the cover as it was drawn, by made-up coordinates in tenths of a millimetre: first with a triple that is cut, with a coordinate that is too
   far, and with a list that is one short, by which nothing may be answered. The hem sheet of the same file must have the same lines. */
static void print_hems(const uint8_t *file, size_t file_len) {
    static int32_t triples[3 * BH_MAX_ENTRIES + 1];
    static uint32_t panels[BH_MAX_CORNERS], edges[BH_MAX_CORNERS];
    static uint64_t long_ones[BH_MAX_CORNERS];
    static uint8_t input[4 + BH_FILE_ROOM + 4 * (3 * BH_MAX_ENTRIES)], text[BH_HEM_ROOM];
    static char lines[BH_HEM_ROOM + 1];
    size_t hems, coordinates = 3 * drawn.positioncount, written = 0, length = 0, bytes;
    for (size_t i = 0; i < drawn.positioncount; i++) {
        triples[3 * i] = (int32_t)(100 * i);
        triples[3 * i + 2] = (int32_t)(i % 4) * -75;
    }
#define HEMS(count, room) bh_list_hems(LISTS(&drawn), triples, count, ROOM(panels), ROOM(edges), long_ones, room, &hems)
    uint32_t number = HEMS(coordinates + 1, BH_MAX_CORNERS);
    printf("triples %u: %s\n", number, bh_text(number));
    if (coordinates > 0) {
        triples[coordinates - 1] -= BH_MAX_COORDINATE + 1;
        number = HEMS(coordinates, BH_MAX_CORNERS);
        triples[coordinates - 1] += BH_MAX_COORDINATE + 1;
        printf("too far %u: %s\n", number, bh_text(number));
    }
    bool refused = drawn.cornercount == 0 || (HEMS(coordinates, drawn.cornercount - 1) == BH_ROOM && hems == 0);
    number = HEMS(coordinates, drawn.cornercount);
    if (number != BH_DONE) {
        written = (size_t)sprintf(lines, "refused %u\n", number);
    }
    for (size_t i = 0; i < hems; i++) {
        written += (size_t)sprintf(lines + written, "hem %u %u %" PRIu64 "\n", panels[i], edges[i], long_ones[i]);
        printf("listed %u %u %" PRIu64 "\n", panels[i], edges[i], long_ones[i]);
    }
    put_number(input, (uint32_t)file_len);
    memcpy(input + 4, file, file_len);
    for (length = 4 + file_len, bytes = 0; bytes < coordinates; bytes++, length += 4) {
        put_number(input + length, (uint32_t)triples[bytes]);
    }
    if (length > BH_MAX_FILE) {
        written = (size_t)sprintf(lines, "refused %u\n", BH_OVER_LIMIT);
    }
    uint32_t printed = bh_hem_sheet(input, length, ROOM(text), &bytes);
    bool same = printed == BH_DONE && bytes == written && memcmp(text, lines, bytes) == 0;
    printf("hem sheet %u%s\n", number, same && refused ? ", the same" : "");
}

int main(int count, char **words) {
    static uint8_t file[BH_FILE_ROOM], text[BH_SHEET_ROOM];
    bool is_scan = count > 1 && words[1] != NULL;
    size_t length = fread(file, 1, is_scan ? BH_FILE_ROOM : BH_MAX_FILE + 1, stdin), bytes;
    uint32_t number = is_scan ? from_scan(file, &length) : BH_DONE;
    if (number != BH_DONE) {
        printf("refused %u\n", number);
        return 0;
    }
    number = draw(file, length);
    if (number == BH_DONE) {
        print_sheet();
        print_row("drawn as", origins, clean.facecount);
        print_in_place();
        print_more();
        print_written(file, length);
        print_hems(file, length);
        print_broken();
    } else {
        printf("refused %u\n", number);
    }
    bh_sheet(file, length, ROOM(text), &bytes);
    fwrite(text, 1, bytes, stdout);
    return 0;
}
