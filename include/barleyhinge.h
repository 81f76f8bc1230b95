/* Barleyhinge for C: the calls of the verified mesh library (crates/barleyhinge), linked from libbarleyhinge.a.

   'tools/staticlib' makes the archive, target/staticlib/libbarleyhinge.a, for x86-64 Linux. tools/check_declarations holds
   the declarations below to the source of the library, name by name, order by order, type by type, and each constant to its value.

   A MESH is five lists that the caller keeps and the calls only read, but for bh_compact_in_place, which changes all but the sizes where they stand:
     positions  3 numbers to a position       at most BH_MAX_ENTRIES positions
     textures   2 numbers to a texture point  at most BH_MAX_ENTRIES
     normals    3 numbers to a normal         at most BH_MAX_ENTRIES
     corners    BH_CORNER_WIDTH numbers to a corner: the index of its position, of its texture point and of its normal, and its mark; at most
                BH_MAX_CORNERS. BH_MISSING is no index: a texture point or a normal may be missing, a position never. The mark, 0 for none, may be
                any number: no rule tests it, and it moves with its corner
     sizes      how many corners each face has, 3 to BH_MAX_FACE_CORNERS: triangles first, then quadrangles, then larger faces.
                The corners of the faces stand one after the other in 'corners'; so faces are numbered, from 0

   WHAT A CALL NEEDS. Each list comes as a pointer and a length ('_len'), which counts numbers, not points or corners. A pointer is
   never null and is aligned for its type, also where the length is 0. What a call may write (lists and counts without 'const')
   overlaps nothing else that it is given. That is all: whatever the numbers in the lists are, the call is safe and ends.

   WHAT A CALL ANSWERS. A number of 'enum bh_number': 0 and the whole result, or the first number of the table that applies and
   nothing: then no lent list is touched, and each count is 0. On 0 the result stands at the front of each lent list, and the room
   behind it is as it was (bh_compact_in_place clears what it frees of the mesh's own lists). Calls check in ascending order of number, but that 14, 18 and 19 come before 9, and that smoothing and those on a file have
   an order of their own. Any call on a mesh may answer 1 to 5; what else it may answer stands with it. Coordinates that are not finite are a mesh's own
   affair until it is merged or smoothed (7) or written (14).

   MEMORY. No call allocates, and none keeps anything: there are no statics, so calls may run side by side, each with lists of its own to
   write; lists that are only read may be shared. A lent list need not be initialised. What a call needs beside its lists is stack: the
   line 'Stack' with each call has it in KB of 1,024 bytes, the smallest on which it still worked on the worst inputs, measured on x86-64 by
   tools/stack, which also holds these lines to the library (docs/STACK.md); none is proved.

   What is promised is proved for every input: each call's contract stands in crates/barleyhinge/src/lib.rt. */
#ifndef BARLEYHINGE_H
#define BARLEYHINGE_H

/* The version of this interface. 0.12.0 has two functions more, bh_list_hems and bh_hem_sheet, and the numbers 18 and 19, which no other function returns. 0.11.0 has bh_compact_in_place. Since 0.10.0 a corner is four numbers, where it was three: every list of corners has another length, and what was
   compiled before must not be linked with it, though no function has another signature. A panel file has a face with a mark as a record of kind 6, which
   an older reader refuses by 12. Since 0.8.0 a face may have 300 corners, where it was 32, and one of more than 32 is a record of kind 5. */
#define BH_VERSION_MAJOR 0
#define BH_VERSION_MINOR 12
#define BH_VERSION_PATCH 0
#define BH_VERSION "0.12.0"

#include <stdbool.h>
#include <stddef.h>
#include <stdint.h>

#ifdef __cplusplus
extern "C" {
#endif

/* No index. */
#define BH_MISSING UINT32_C(4294967295)

/* The limits. */
enum bh_limit {
    BH_CORNER_WIDTH = 4,  /* numbers of a corner: position, texture point, normal, mark */
    BH_MAX_ENTRIES = 2048,
    BH_MAX_CORNERS = 4096,
    BH_MAX_FACES = 1365,
    BH_MAX_FACE_CORNERS = 300,
    BH_COSINES = 64,      /* values in a list of cosines, and the most neighbours of a position that is smoothed */
    BH_MAX_COORDINATE = 1000000, /* tenths of a millimetre: a coordinate of a triple is at most so far from 0, either way */
    BH_MAX_FILE = 65536,  /* bytes of a panel file that has a sheet, and of what bh_hem_sheet takes in all; of a longer one the sheet is 'refused 1' */
    BH_SHEET_ROOM = 65536, /* bytes: room for every sheet */
    BH_HEM_ROOM = 106496,  /* bytes: room for every hem sheet, 26 for each corner that a mesh may have */
    BH_FILE_ROOM = 229378  /* bytes: room for every panel file that a mesh can make, all of its lists at their limits and a mark in every face */
};

/* The numbers that calls return. */
enum bh_number {
    BH_DONE = 0,
    BH_OVER_LIMIT = 1,      /* a list is over its limit, or would be in what smoothing gives, or in the mesh of a scan */
    BH_MISFIT = 2,          /* a length is no multiple of its width, or the sizes don't add up to the corners */
    BH_FACE_SIZE = 3,       /* a face size lies outside 3 to 300; in a file also: more than 32 corners in a record of kind 4 */
    BH_UNGROUPED = 4,       /* the sizes aren't grouped: triangles, quadrangles, larger faces */
    BH_INDEX = 5,           /* a position index, or another index that isn't missing, is not below its list's count */
    BH_TOLERANCE = 6,       /* the tolerance is not a number from 2^-30 to 1 inclusive */
    BH_COORDINATE = 7,      /* a coordinate is not finite, or its magnitude is above 2^60 */
    BH_QUOTIENT = 8,        /* a texture or normal coordinate divided by the tolerance has magnitude 2^53 or more */
    BH_ROOM = 9,            /* a lent list is shorter than its stated room */
    BH_NO_HOUSE_WIRES = 10, /* house wires, the list of hems, or smoothing, where the verdict is neither Oriented nor Closed */
    BH_FILE_CUT = 11,       /* the file stops inside a record, or before its end record; a scan stops before the last triangle of its count */
    BH_RECORD = 12,         /* a record's kind is unknown, or its length is wrong for its kind, or a face of kind 6 has no mark */
    BH_AFTER_END = 13,      /* bytes follow the end record, or the last triangle of a scan */
    BH_NOT_FINITE = 14,     /* a coordinate in a file is not finite: not a number, or an infinity */
    BH_NOT_TRIANGLE = 15,   /* smoothing: a face isn't a triangle */
    BH_FOLDED_OR_UNUSED = 16, /* smoothing: a face is folded, or a position is in no face */
    BH_UNFIT_COSINES = 17,  /* smoothing: a cosine list isn't 64 long or holds a value not within -1 to 1, or a position has over 64 neighbours */
    BH_TRIPLES = 18,        /* the list of hems: the triples don't match the number of positions; in a file also: a triple is cut */
    BH_TOO_FAR = 19         /* the list of hems: a coordinate of a triple is beyond 1,000,000 either way */
};

/* The verdicts, from the weakest to the strongest. */
enum bh_verdict {
    BH_IRREGULAR = 0, /* some edge is used three times or more */
    BH_REGULAR = 1,   /* else: some edge is used twice in the same direction */
    BH_ORIENTED = 2,  /* else: some edge is used exactly once */
    BH_CLOSED = 3     /* else */
};

/* What a number says, in words. */
static inline const char *bh_text(uint32_t number) {
    switch (number) {
    case BH_DONE: return "done";
    case BH_OVER_LIMIT: return "a list is over its limit";
    case BH_MISFIT: return "a length is no multiple of its width, or the sizes don't add up to the corners";
    case BH_FACE_SIZE: return "a face size lies outside 3 to 300";
    case BH_UNGROUPED: return "the sizes aren't grouped";
    case BH_INDEX: return "an index is out of range";
    case BH_TOLERANCE: return "the tolerance is not a number from 2^-30 to 1";
    case BH_COORDINATE: return "a coordinate is not finite or too large";
    case BH_QUOTIENT: return "a coordinate is too large for the tolerance";
    case BH_ROOM: return "a lent list is too short";
    case BH_NO_HOUSE_WIRES: return "the verdict is neither Oriented nor Closed";
    case BH_FILE_CUT: return "the file stops too early";
    case BH_RECORD: return "a record's kind is unknown, or its length is wrong, or a face for marks has none";
    case BH_AFTER_END: return "bytes follow the end record, or the last triangle of a scan";
    case BH_NOT_FINITE: return "a coordinate in a file is not finite";
    case BH_NOT_TRIANGLE: return "a face isn't a triangle";
    case BH_FOLDED_OR_UNUSED: return "a face is folded, or a position is in no face";
    case BH_UNFIT_COSINES: return "a cosine list isn't 64 long or holds a value not within -1 to 1, or a position has over 64 neighbours";
    case BH_TRIPLES: return "the triples don't match the number of positions";
    case BH_TOO_FAR: return "a coordinate of a triple is beyond 1,000,000 either way";
    default: return "no number of the table";
    }
}

/* A verdict by its name, as it stands on a sheet. */
static inline const char *bh_verdict_text(uint32_t verdict) {
    switch (verdict) {
    case BH_IRREGULAR: return "Irregular";
    case BH_REGULAR: return "Regular";
    case BH_ORIENTED: return "Oriented";
    case BH_CLOSED: return "Closed";
    default: return "no verdict";
    }
}

/* Is this a mesh? Answers 0 where it is, else the first of 1 to 5 that applies. Lends nothing.
   Stack: 1 KB. */
uint32_t bh_mesh_number(
    const double *positions, size_t positions_len,
    const double *textures, size_t textures_len,
    const double *normals, size_t normals_len,
    const uint32_t *corners, size_t corners_len,
    const uint32_t *sizes, size_t sizes_len);

/* The corners of face k, as a part of 'corners': '*start' is the place of their first number, '*len' how many numbers they are.
   Both are 0 where k is no face or the lists earn 1 to 4. This call alone has no number; an index out of range (5) does not matter to it.
   Stack: 1 KB. */
void bh_face(
    const double *positions, size_t positions_len,
    const double *textures, size_t textures_len,
    const double *normals, size_t normals_len,
    const uint32_t *corners, size_t corners_len,
    const uint32_t *sizes, size_t sizes_len,
    size_t k,
    size_t *start,
    size_t *len);

/* Faces in any order become the corners and sizes of a mesh: triangles first, then quadrangles, then larger faces, each group in the
   order in which they came. Faces of fewer than three corners are dropped. 'corners' has the corners of all faces, one face behind the
   other, and 'sizes' how many corners each has, 0 to BH_MAX_FACE_CORNERS.
   Lends two lists, each with the room of the list that it is made from.
   On 0: BH_CORNER_WIDTH numbers in 'newcorners' for each of '*cornercount' corners, each with its mark, and '*facecount' sizes.
   Answers 1, 2, 3 (a face of more than 300 corners) or 9. Indices are not looked at: bh_mesh_number does that, and answers 5.
   Stack: 1 KB. */
uint32_t bh_push(
    const uint32_t *corners, size_t corners_len,
    const uint32_t *sizes, size_t sizes_len,
    uint32_t *newcorners, size_t newcorners_len,
    uint32_t *newsizes, size_t newsizes_len,
    size_t *cornercount,
    size_t *facecount);

/* Compaction: entries that no corner uses go; the others are renumbered by first use, from 0, each of the three lists by itself. Marks stay.
   Lends four lists, each with the room of the list that it is made from. The sizes don't change and are not given back.
   On 0: corners_len numbers in 'newcorners', and in the other three 3, 2 and 3 numbers for each position, texture point and normal
   that '*positioncount', '*texturecount' and '*normalcount' count. A missing index stays missing. Each number, the infinities and both
   zeros are kept bit for bit; a NaN stays a NaN.
   May also answer 9.
   Stack: 9 KB. */
uint32_t bh_remove_unused_attrs(
    const double *positions, size_t positions_len,
    const double *textures, size_t textures_len,
    const double *normals, size_t normals_len,
    const uint32_t *corners, size_t corners_len,
    const uint32_t *sizes, size_t sizes_len,
    uint32_t *newcorners, size_t newcorners_len,
    double *newpositions, size_t newpositions_len,
    double *newtextures, size_t newtextures_len,
    double *newnormals, size_t newnormals_len,
    size_t *positioncount,
    size_t *texturecount,
    size_t *normalcount);

/* Compaction in place: what bh_remove_unused_attrs gives, without a second list of coordinates. Entries move to their first-use places within the
   list they stand in, corners are renumbered where they stand, and marks stay. This call alone changes the mesh that it is given: all lists of it
   but 'sizes' may be written.
   Lends 'numbers', a list of old-to-new numbers with room for one number for each entry of the longest of the three attribute lists: the greatest of
   positions_len / 3, textures_len / 2 and normals_len / 3. BH_MAX_ENTRIES numbers are enough for every mesh.
   On 0: 3, 2 and 3 numbers for each position, texture point and normal that '*positioncount', '*texturecount' and '*normalcount' count stand at the
   front of their lists, as bh_remove_unused_attrs would give them, and all freed room behind them is zero bits; the corners are those that it
   would give; and the stated room of 'numbers' is zeros, while what is longer is as it was. Numbers and NaNs are kept as there.
   May also answer 9. On a refusal nothing has moved, in the mesh or in 'numbers'.
   Stack: 1 KB. */
uint32_t bh_compact_in_place(
    double *positions, size_t positions_len,
    double *textures, size_t textures_len,
    double *normals, size_t normals_len,
    uint32_t *corners, size_t corners_len,
    const uint32_t *sizes, size_t sizes_len,
    uint32_t *numbers, size_t numbers_len,
    size_t *positioncount,
    size_t *texturecount,
    size_t *normalcount);

/* Folded faces (two corners with one position) go or are cut open; no face of the result is folded.
   Lends 'newcorners', with room for corners_len numbers, and 'newsizes' and 'origins', each with room for a third of the count of
   corners, rounded down (corners_len / BH_CORNER_WIDTH / 3). The attribute lists don't change.
   On 0: BH_CORNER_WIDTH numbers in 'newcorners' for each of '*cornercount' corners, '*facecount' sizes, and as many origins: face k of the result
   came from face origins[k]. Where nothing is folded they are 0, 1, 2, .. . bh_remove_unused_attrs changes no face's number, so they
   hold after it too.
   May also answer 9.
   Stack: 149 KB. */
uint32_t bh_remove_degenerate_faces(
    const double *positions, size_t positions_len,
    const double *textures, size_t textures_len,
    const double *normals, size_t normals_len,
    const uint32_t *corners, size_t corners_len,
    const uint32_t *sizes, size_t sizes_len,
    uint32_t *newcorners, size_t newcorners_len,
    uint32_t *newsizes, size_t newsizes_len,
    uint32_t *origins, size_t origins_len,
    size_t *cornercount,
    size_t *facecount);

/* Merging: near positions, texture points and normals each get the index of one of them. Positions are first scaled to their box.
   'tolerance' is from 2^-30 to 1. Lends 'newcorners', with room for corners_len numbers; the other lists don't change.
   On 0: corners_len numbers in 'newcorners', each corner with its own mark, and how many pairs were compared among positions, texture points and normals.
   May also answer 6, 7, 8 and 9.
   Stack: 227 KB. */
uint32_t bh_put_together_same_attrs(
    const double *positions, size_t positions_len,
    const double *textures, size_t textures_len,
    const double *normals, size_t normals_len,
    const uint32_t *corners, size_t corners_len,
    const uint32_t *sizes, size_t sizes_len,
    double tolerance,
    uint32_t *newcorners, size_t newcorners_len,
    size_t *positionpairs,
    size_t *texturepairs,
    size_t *normalpairs);

/* Merging by cell: another way to the same answers. Whatever bh_put_together_same_attrs answers to the same lists, this one answers: the number,
   'newcorners' and the three counts of pairs. It orders the points by cell and compares only points in cells within two on each axis, where the
   plain one looks at every pair. Take it for hundreds of points or more, as in a scan; for fewer, or where all points are alike on the first axis,
   either will do.
   'tolerance', what it lends and what else it may answer (6, 7, 8 and 9) are those of bh_put_together_same_attrs.
   Stack: 227 KB. */
uint32_t bh_put_together_by_cell(
    const double *positions, size_t positions_len,
    const double *textures, size_t textures_len,
    const double *normals, size_t normals_len,
    const uint32_t *corners, size_t corners_len,
    const uint32_t *sizes, size_t sizes_len,
    double tolerance,
    uint32_t *newcorners, size_t newcorners_len,
    size_t *positionpairs,
    size_t *texturepairs,
    size_t *normalpairs);

/* Smoothing by Loop's method: four triangles for one, with new positions. Every face is a triangle, none is folded, every position is in
   some face, and the verdict is Oriented or Closed. Old positions are moved and come first, then one new position for each edge, in the
   order of the edges' first use. Old corners keep their texture point, normal and mark; the corners on edges have no texture point and no normal (BH_MISSING), and a mark of 0.
   'ones' are the cosines of pi/n and 'twos' those of 2*pi/n, for n from 1 to BH_COSINES: ones[n - 1] is cos(pi / n).
   Lends 'newpositions', with room for 3 numbers for each position and each corner (positions_len + 3 * (corners_len / BH_CORNER_WIDTH)), 'newcorners', with room
   for 4 * corners_len numbers, and 'newsizes', with room for 4 * sizes_len. Texture points and normals don't change and are not given back.
   On 0: 3 numbers for each of '*positioncount' positions, BH_CORNER_WIDTH for each of '*cornercount' corners, and '*facecount' sizes: with the texture
   points and normals that were given, an accepted mesh.
   Answers, after 1 to 5 and in this order: 7 a position is not finite or too large; 15 a face is no triangle; 16 a face is folded or a
   position is in no face; 10 the verdict is neither Oriented nor Closed; 17 a cosine list has not BH_COSINES values, each from -1 to 1, or a
   position has more neighbours than that; 1 there are more than 341 faces, so that the result would be over a limit; 9.
   Stack: 265 KB. */
uint32_t bh_loop_subdivision(
    const double *positions, size_t positions_len,
    const double *textures, size_t textures_len,
    const double *normals, size_t normals_len,
    const uint32_t *corners, size_t corners_len,
    const uint32_t *sizes, size_t sizes_len,
    const double *ones, size_t ones_len,
    const double *twos, size_t twos_len,
    double *newpositions, size_t newpositions_len,
    uint32_t *newcorners, size_t newcorners_len,
    uint32_t *newsizes, size_t newsizes_len,
    size_t *positioncount,
    size_t *cornercount,
    size_t *facecount);

/* The verdict, a number of 'enum bh_verdict', by counting every use of every edge. It is written only with 0.
   Stack: 97 KB. */
uint32_t bh_shell_condition(
    const double *positions, size_t positions_len,
    const double *textures, size_t textures_len,
    const double *normals, size_t normals_len,
    const uint32_t *corners, size_t corners_len,
    const uint32_t *sizes, size_t sizes_len,
    uint32_t *verdict);

/* The hem edges: those used an odd number of times, ascending by their lower and then their higher position, each in the direction
   of its last use. Lends 'starts' and 'ends', each with room for one number per corner (corners_len / BH_CORNER_WIDTH).
   On 0: '*count' edges, from starts[i] to ends[i].
   May also answer 9.
   Stack: 97 KB. */
uint32_t bh_hem_edges(
    const double *positions, size_t positions_len,
    const double *textures, size_t textures_len,
    const double *normals, size_t normals_len,
    const uint32_t *corners, size_t corners_len,
    const uint32_t *sizes, size_t sizes_len,
    uint32_t *starts, size_t starts_len,
    uint32_t *ends, size_t ends_len,
    size_t *count);

/* The ported wires along the hem edges, as truck traces them, with its maps in ascending order.
   Lends 'flat', with room for two numbers per corner (2 * (corners_len / BH_CORNER_WIDTH)), and 'lengths', with room for one.
   On 0: '*flatcount' positions in 'flat', the wires one after the other, and in 'lengths' how many each of '*wirecount' wires has.
   May also answer 9.
   Stack: 153 KB. */
uint32_t bh_extract_boundaries(
    const double *positions, size_t positions_len,
    const double *textures, size_t textures_len,
    const double *normals, size_t normals_len,
    const uint32_t *corners, size_t corners_len,
    const uint32_t *sizes, size_t sizes_len,
    uint32_t *flat, size_t flat_len,
    uint32_t *lengths, size_t lengths_len,
    size_t *flatcount,
    size_t *wirecount);

/* The house wires: every hem edge is used exactly once. After a hem edge comes the next edge of its face, or, where that is no hem edge,
   the next one of the face across it, and so on; so a wire keeps to its cloth: pieces that touch at a point have no wire in common, and
   two openings of one piece that touch at one point are one wire, which passes it twice. It closes when it would use its first edge
   again. A wire begins at the smallest start left, and of these at the smallest end.
   Lends 'flat' and 'lengths', each with room for one number per corner.
   On 0: as for the ported wires.
   May also answer 9, and 10 where the verdict is neither Oriented nor Closed.
   Stack: 113 KB. */
uint32_t bh_house_wires(
    const double *positions, size_t positions_len,
    const double *textures, size_t textures_len,
    const double *normals, size_t normals_len,
    const uint32_t *corners, size_t corners_len,
    const uint32_t *sizes, size_t sizes_len,
    uint32_t *flat, size_t flat_len,
    uint32_t *lengths, size_t lengths_len,
    size_t *flatcount,
    size_t *wirecount);

/* The panels: faces that hang together by shared edges, and with 'use_normal' only where both normals there are the same too.
   Lends 'flat' and 'lengths', each with room for one number per corner.
   On 0: '*flatcount' face numbers in 'flat', the panels one after the other, and in 'lengths' how many faces each of '*panelcount'
   panels has. Each face stands in exactly one panel, once.
   May also answer 9.
   Stack: 193 KB. */
uint32_t bh_components(
    const double *positions, size_t positions_len,
    const double *textures, size_t textures_len,
    const double *normals, size_t normals_len,
    const uint32_t *corners, size_t corners_len,
    const uint32_t *sizes, size_t sizes_len,
    bool use_normal,
    uint32_t *flat, size_t flat_len,
    uint32_t *lengths, size_t lengths_len,
    size_t *flatcount,
    size_t *panelcount);

/* The list of hems: of each hem its panel, its number of edges and its length. A hem is a house wire, and hems stand in the order of bh_house_wires; the
   mesh is taken as it is, not cleaned. 'triples' are whole-number coordinates in tenths of a millimetre, signed, three for each position, in the order of
   the positions: lengths go by them, and not by the mesh's own coordinates. An edge's length is the greatest whole number whose square is at most the
   squared distance of its ends; a hem's length is the sum over its edges, the closing one among them, and may take more than 32 bits. All edges of a hem
   lie in one panel: its number is that of bh_components without 'use_normal', from 0.
   Lends 'panels', 'edges' and 'lengths', each with room for one entry per corner (corners_len / BH_CORNER_WIDTH).
   On 0: '*hems' entries in each of the three lists.
   May also answer, after 5 and in this order: 18 where triples_len is not 3 for each position; 19 a coordinate is beyond BH_MAX_COORDINATE either way, of a
   position that no corner uses too; 9; 10 where the verdict is neither Oriented nor Closed.
   Stack: 391 KB. */
uint32_t bh_list_hems(
    const double *positions, size_t positions_len,
    const double *textures, size_t textures_len,
    const double *normals, size_t normals_len,
    const uint32_t *corners, size_t corners_len,
    const uint32_t *sizes, size_t sizes_len,
    const int32_t *triples, size_t triples_len,
    uint32_t *panels, size_t panels_len,
    uint32_t *edges, size_t edges_len,
    uint64_t *lengths, size_t lengths_len,
    size_t *hems);

/* Reads a panel file into five lists. Lends them at the full limits: 3 * BH_MAX_ENTRIES numbers for positions, 2 * BH_MAX_ENTRIES for
   texture points, 3 * BH_MAX_ENTRIES for normals, BH_CORNER_WIDTH * BH_MAX_CORNERS for corners, BH_MAX_FACES for sizes.
   On 0: the lists are a mesh, with so many positions, texture points, normals, corners and faces as the five counts say, and every
   coordinate is finite. Corners of a face of kind 6 have its marks, those of kinds 4 and 5 marks of 0.
   Answers, in this order: 9; record by record 11 header cut, 12 kind, 12 length, 11 body cut, 12 a face's own count is not that of its
   length, 12 a face of kind 6 whose marks are all 0, 3 a face of more than 32 corners in kind 4 or of more than 300 in kinds 5 and 6, 14 a coordinate that is not finite, 1 limit; then 13; then 5.
   Stack: 198 KB. */
uint32_t bh_read_panel(
    const uint8_t *file, size_t file_len,
    double *positions, size_t positions_len,
    double *textures, size_t textures_len,
    double *normals, size_t normals_len,
    uint32_t *corners, size_t corners_len,
    uint32_t *sizes, size_t sizes_len,
    size_t *positioncount,
    size_t *texturecount,
    size_t *normalcount,
    size_t *cornercount,
    size_t *facecount);

/* Reads a scan, a binary STL file, into five lists: 80 bytes of header, a four-byte count, then 50 bytes for each triangle, a normal and three
   points, all f32, and two bytes; all little-endian. Points with equal bits become one position, numbered by first appearance; a negative zero is
   read as zero first. Widening to double loses nothing. The header, the normals and the two-byte fields are passed over, whatever is in them; folded
   triangles are kept.
   Lends the five lists at the full limits, as bh_read_panel does; 'textures' and 'normals' are never written, and their counts are 0.
   On 0: the lists are a mesh of triangles whose corners have no texture point, no normal and a mark of 0, with so many positions, corners and faces as the counts
   say; no two positions are equal, each is used, and every coordinate is finite.
   Answers, in this order: 9; 11 fewer than 84 bytes; 1 a count over BH_MAX_FACES; 11 or 13 where the length is below or above 84 + 50 * count; 14 a
   point that is not finite; 1 more than BH_MAX_ENTRIES different positions.
   Stack: 177 KB. */
uint32_t bh_read_scan(
    const uint8_t *file, size_t file_len,
    double *positions, size_t positions_len,
    double *textures, size_t textures_len,
    double *normals, size_t normals_len,
    uint32_t *corners, size_t corners_len,
    uint32_t *sizes, size_t sizes_len,
    size_t *positioncount,
    size_t *texturecount,
    size_t *normalcount,
    size_t *cornercount,
    size_t *facecount);

/* Writes a mesh as a panel file: positions, texture points, normals, faces in their order, end. bh_read_panel of what was written gives the
   same mesh, bit for bit, and a mesh that was read from a written file is written as the same bytes.
   A face with any mark not 0 is a record of kind 6; of the others one of up to 32 corners is of kind 4, a larger one of kind 5.
   Lends 'file', with room for the whole file: 28 bytes for a position or a normal, 20 for a texture point; for a face without marks 5 where it has up to
   32 corners and else 6, and 12 for each corner; for a face with a mark 6, and 16 for each corner; 4 for the end. BH_FILE_ROOM bytes are enough for every mesh.
   On 0: '*length' bytes in 'file'.
   May also answer 14, where a coordinate is not finite, of an entry that no corner uses too; then 9, where 'file' is shorter than the
   whole file.
   Stack: 1 KB. */
uint32_t bh_write_panel(
    const double *positions, size_t positions_len,
    const double *textures, size_t textures_len,
    const double *normals, size_t normals_len,
    const uint32_t *corners, size_t corners_len,
    const uint32_t *sizes, size_t sizes_len,
    uint8_t *file, size_t file_len,
    size_t *length);

/* Cleans a panel file: reads it, removes folded faces, compacts, and writes what is left as a panel file, as the program meshclean does.
   Lends 'cleaned', with room for BH_FILE_ROOM bytes, whatever the file holds.
   On 0: '*length' bytes in 'cleaned'.
   Answers 9; then 1 for a file of more than BH_FILE_ROOM bytes; then what bh_read_panel answers to a file.
   Stack: 346 KB. */
uint32_t bh_clean_panel(
    const uint8_t *file, size_t file_len,
    uint8_t *cleaned, size_t cleaned_len,
    size_t *length);

/* The sheet of a panel file, as the program meshsheet prints it. Lends 'text', with room for BH_SHEET_ROOM bytes, which are enough for
   every sheet.
   On 0: '*length' bytes in 'text'. A refused file has a sheet too: the line 'refused' and its number, which comes with 0.
   May also answer 9, and nothing else.
   Stack: 391 KB. */
uint32_t bh_sheet(
    const uint8_t *file, size_t file_len,
    uint8_t *text, size_t text_len,
    size_t *length);

/* The hem sheet, as the program hemsheet prints it. 'file' is a four-byte count, that many bytes of panel file, then the triples of its positions, three
   four-byte signed numbers to each; all little-endian. The cover is taken as it is, not cleaned. A line for each hem: 'hem', panel, edges and length, as
   bh_list_hems gives them; nothing where there is no hem.
   Lends 'text', with room for BH_HEM_ROOM bytes, which are enough for every hem sheet.
   On 0: '*length' bytes in 'text'. A refused file has a sheet too, which comes with 0: the line 'refused' and its number, the first of these: 1 it has more
   than BH_MAX_FILE bytes in all; 11 it has fewer than four, or fewer than the count says; what bh_read_panel answers to the panel file; 18 the triples don't
   match the number of positions, or one is cut; 19; 10.
   May also answer 9, and nothing else.
   Stack: 604 KB. */
uint32_t bh_hem_sheet(
    const uint8_t *file, size_t file_len,
    uint8_t *text, size_t text_len,
    size_t *length);

#ifdef __cplusplus
}
#endif

#endif
