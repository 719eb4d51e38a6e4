/* SPDX-License-Identifier: MIT OR Apache-2.0
 *
 * maskcull for C and C++: tells, before a picture is drawn, what is hidden in it. C11 or C++17.
 *
 * The picture is cut into tiles of 32 by 8 pixels, and each tile into eight subtiles of 8 by 4. Large triangles that
 * stand in front, the occluders, are drawn onto the tiles, which keep two depths and a mask for each subtile. Then
 * rectangles, boxes and meshes are tested against the tiles: what is called occluded has, at each of its samples in the
 * screen, a drawn triangle strictly nearer. A pixel has one sample, in its middle. "Visible" is no promise: it is also
 * said where it can't be told.
 *
 * The tiles lie in your memory. A call writes the tiles or the room that is passed to it, and nothing else: none
 * allocates, keeps a pointer, starts a thread, takes a lock, prints or exits. Each machine gives the same answers: all
 * arithmetic is in whole numbers, but for corners and rectangles that maskcull_set_up_floats and the tests beside it
 * propose in doubles, without fused operations or a library's functions, and then certify in whole numbers.
 *
 *     #include "maskcull.h"
 *
 *     maskcull_setup setup = {1280, 720, 64, MASKCULL_WIDE};                       // near distance 64, both windings
 *     size_t tile_count;
 *     maskcull_tile *tiles = maskcull_open(setup.width, setup.height, &tile_count);
 *     if (tiles == NULL) return 1;
 *     for (;;) {                                                                   // each frame
 *         maskcull_clear(tiles, tile_count);
 *         maskcull_draw(&setup, tiles, tile_count, vertices, vertex_count, triangles, triangle_count);
 *         if (maskcull_test_box(&setup, tiles, tile_count, &box) == MASKCULL_VISIBLE) draw_the_house();
 *     }
 *     maskcull_close(tiles);
 *
 * Link with libmaskcull_c.a, which `rt lib` makes in crates/maskcull_c: cc game.c libmaskcull_c.a
 * It runs on each processor of x86-64-v2 (SSE4.2, POPCNT). `rt lib --cpu x86-64-v3` makes one that is faster and needs
 * AVX2; both have the same calls and give the same answers. A library doesn't check its processor, so ask before the
 * first call: __builtin_cpu_supports("x86-64-v3") in GCC from 12 on, or "avx2", "bmi2" and "fma" one by one. A program
 * that is to use either has each in a shared library of its own, and loads the one that its processor supports.
 *
 * Units
 *   - Pixels count from the upper left corner, x to the right and y downwards.
 *   - A vertex is given in clip space, before the division by w: x / w runs from -1 at the left edge of the screen to
 *     1 at the right, y / w from -1 at the lower edge to 1 at the upper, and w is the distance along the view. x, y, w
 *     and the near distance are whole numbers of a unit of your own. The view has to be one in perspective.
 *   - Nearness is 16777215 near / w in the wide grade, 65535 near / w in the narrow one: rounded down for what is drawn
 *     and up for what is tested. Two distances with one nearness are equally near, and what is equally near isn't
 *     hidden. So an object is hidden only where it is farther than an occluder by a step, which at d near distances is
 *     d / 16777215 of the distance in the wide grade: at 1,000 near distances .006 %, and 1.5 % in the narrow one.
 *     Take the wide grade, MASKCULL_WIDE in a setup, unless a program's answers are to stay what they were.
 *   - Or positions, a matrix and the near distance are floats, in a maskcull_view. Then nothing is snapped before it is
 *     drawn, and what is called occluded is hidden by the exact triangles of these floats: the ray through any point
 *     that is within `reach` sixteenths of a pixel of a pixel's middle, along each axis, in each pixel that a point of
 *     the object projects into, meets a drawn triangle that is strictly nearer than all of the object. A reach of 8 is
 *     the whole pixel. docs/PICTURE.md has this in full.
 *
 * Preconditions, which no call can check
 *   For safety
 *   1. No pointer is null, also where the count beside it is 0, and each is aligned for its type. It points to
 *      as many elements as its count says. (The maskcull_checked_ forms below allow null.)
 *   2. Each tile is all zero bytes, which is an empty tile, or was last written by these calls, or is a copy of such a
 *      tile. So tiles come from maskcull_open, calloc, std::vector<maskcull_tile>(count), or by memcpy from tiles, and
 *      never from malloc alone. Each piece that is drawn was last written by maskcull_set_up or maskcull_set_up_floats,
 *      or is a copy of such a piece; zero bytes aren't a piece. Room that a call only writes to, scratch too, may hold
 *      anything, and may come from malloc.
 *   3. What a call writes, tiles, pieces, scratch, a count or a picture, overlaps nothing else that is passed to it.
 *   4. While a call runs no other thread writes what it reads, or touches what it writes. Tests may run side by side,
 *      and so may maskcull_draw_band and maskcull_draw_pieces on tiles that don't overlap, and maskcull_set_up and
 *      maskcull_set_up_floats into room that doesn't.
 *   For right answers
 *   5. From one clearing to the next all calls on some tiles have the same width, height, near distance and grade, and
 *      so have the calls that set up the pieces which are drawn. The winding may change from call to call. Tiles don't
 *      know the grade: what was drawn wide hides all that is tested narrow, also what is in sight, and what was drawn
 *      narrow hides hardly anything that is tested wide. Between two clearings there is one kind of drawing, of whole
 *      numbers or of floats, and the tests are of that kind. With floats it is the view's near distance, width and
 *      height that stay the same. The rows change from model to model, and reach and share may change: what is promised
 *      holds by the least reach that was drawn.
 *   6. Tiles are copied all together, those of a whole screen, each to the place that it had, and the copy is used with
 *      the width, height, near distance and grade of what it is a copy of. A tile that is copied to another place, or
 *      from a frame of another size, near distance or grade, is safe to read, but what it hides may be in sight. */
#ifndef MASKCULL_H
#define MASKCULL_H

#include <assert.h>
#include <stddef.h>
#include <stdint.h>
#include <stdlib.h>

/* The version of this header and its library. As a number: 10,000 times the first, 100 times the second, the third. */
#define MASKCULL_VERSION "0.1.0"
#define MASKCULL_VERSION_NUMBER 100

#ifdef __cplusplus
extern "C" {
#endif

/* What calls return. With 1 to 5 a call did nothing, and all memory is as it was. */
enum maskcull_status {
    MASKCULL_DONE = 0,      /* all was drawn */
    MASKCULL_BAD_SETUP = 1, /* a number of the setup or of the view isn't one that is allowed */
    MASKCULL_BAD_TILES = 2, /* there are not as many tiles as the screen has, or as whole rows of it have */
    MASKCULL_BAD_INDEX = 3, /* a triangle names a vertex that isn't there */
    MASKCULL_NULL = 4,      /* a pointer is null: only the maskcull_checked_ forms return this */
    MASKCULL_BAD_ROOM = 5,  /* there is too little room for what is to be written */
    MASKCULL_VISIBLE = 16,  /* not hidden, or not known to be */
    MASKCULL_OCCLUDED = 17, /* hidden at each of its samples in the screen, and it has one there */
    MASKCULL_OUTSIDE = 18   /* without a pixel in the screen, or a box or mesh behind the near plane */
};

/* How winding is said in a setup: which triangles aren't drawn, by how they run on the screen. */
enum maskcull_winding {
    MASKCULL_KEEPS_BOTH = 0,
    MASKCULL_DROPS_CLOCKWISE = 1,
    MASKCULL_DROPS_COUNTERCLOCKWISE = 2
};

/* How finely distances are told apart is said beside it: with this added to the winding, nearness goes to 16777215, and
 * to 65535 without. A library from before this constant refuses such a setup. */
enum maskcull_grade {
    MASKCULL_NARROW = 0,
    MASKCULL_WIDE = 16
};

/* The screen and how triangles are taken. With other numbers than these a call returns MASKCULL_BAD_SETUP. */
typedef struct maskcull_setup {
    uint32_t width;   /* in pixels: a multiple of 8, from 8 to 2048 */
    uint32_t height;  /* in pixels: a multiple of 4, from 4 to 2048 */
    uint32_t near_w;  /* the near distance: 1 to 1024. The part of a triangle with w below it is cut off. */
    uint32_t winding; /* 0 to 2, as in maskcull_winding, of occluders only; and MASKCULL_WIDE more in the wide grade */
} maskcull_setup;

/* A vertex in clip space: any numbers. One with x, y or w further than 16384 near_w from 0 is past the guard: an
 * occluder triangle with such a vertex isn't drawn, and an object with one is called visible, unless all of it is behind
 * the near distance: then it is outside. */
typedef struct maskcull_vertex {
    int32_t x;
    int32_t y;
    int32_t w;
} maskcull_vertex;

/* A triangle by the numbers of its vertices, from 0. */
typedef struct maskcull_triangle {
    uint32_t a;
    uint32_t b;
    uint32_t c;
} maskcull_triangle;

/* The pixels from (x0, y0) to before (x1, y1). It may reach past the screen, and may have no pixel. */
typedef struct maskcull_area {
    int32_t x0;
    int32_t y0;
    int32_t x1;
    int32_t y1;
} maskcull_area;

/* The corners of a box, in any order; or up to eight points with some of them repeated. */
typedef struct maskcull_box {
    maskcull_vertex corners[8];
} maskcull_box;

/* How positions of floats are seen. Any floats may be passed; with other whole numbers than these a call returns
 * MASKCULL_BAD_SETUP. The rows are those of x, y and w in clip space, four numbers each: of a position (a, b, c) x is
 * rows[0] a + rows[1] b + rows[2] c + rows[3], and so on; a matrix's row of z isn't read. Clip space from -1 to 1 is
 * the screen, whatever the window's size; it has width by height pixels, the upper left ones of the setup's. The near
 * distance is a w, and no less than the renderer's; that of the setup isn't used. */
typedef struct maskcull_view {
    float rows[12];
    float near_distance;
    uint32_t reach;  /* 0 to 64 sixteenths of a pixel, for occluders: 8 is the whole pixel, 1 about its middle */
    uint32_t share;  /* 0 to 1048576, for objects: what hides them is nearer by so many parts of 2^24 of its w */
    uint32_t stride; /* of positions, in floats: at least 3 */
    uint32_t width;  /* in pixels: from 1 to the setup's */
    uint32_t height; /* in pixels: from 1 to the setup's */
} maskcull_view;

/* Room for what is computed of a position. It means nothing outside the call. */
typedef struct maskcull_scratch {
    int64_t held[3];
    uint32_t state[2];
} maskcull_scratch;

/* A box that reaches from `low` to `high` on each axis. */
typedef struct maskcull_bounds {
    float low[3];
    float high[3];
} maskcull_bounds;

/* A tile: 100 bytes, of which only the calls below make sense. All zero bytes are an empty tile. Subtile k, in column
 * k % 4 and row k / 4 of the tile, has the k-th of each. The count isn't used here: maskcull_clear makes it 0, and
 * drawing leaves it as it was. */
typedef struct maskcull_tile {
    uint32_t references[8];
    uint32_t workings[8];
    uint32_t masks[8];
    uint32_t count;
} maskcull_tile;

/* A triangle on the screen, as maskcull_set_up and maskcull_set_up_floats write it: its corners' coordinates in
 * sixteenths of a pixel, and their nearness. To be read, copied and drawn. */
typedef struct maskcull_piece {
    int32_t x[3];
    int32_t y[3];
    uint32_t q[3];
} maskcull_piece;

/* What a subtile holds, in nearness from 0 to the grade's top: something drawn is at least so near as `working` at each
 * sample of the mask, and as `reference` at the others; 0 says nothing. Sample (column c, row r) is bit 8 r + c. */
typedef struct maskcull_subtile_state {
    uint32_t reference;
    uint32_t working;
    uint32_t mask;
} maskcull_subtile_state;

/* Tiles are numbered row by row from the upper left. A row has (width + 31) / 32 tiles, and there are (height + 7) / 8
 * rows. 0 where a setup with this size would be refused. */
uint32_t maskcull_tile_count(uint32_t width, uint32_t height);

/* Empties the tiles that are passed: all of a screen, or some of them. The others stay as they were. */
void maskcull_clear(maskcull_tile *tiles, size_t tile_count);

/* Draws occluder triangles onto all tiles of the screen, after all that was drawn before: any number of calls, in any
 * order with tests. MASKCULL_DONE wherever the setup, the number of tiles and all indices are right; a triangle that is
 * behind the near plane, past the guard, or of the dropped winding is no error.
 * BAD_SETUP, BAD_TILES (other than maskcull_tile_count of them), BAD_INDEX. */
uint32_t maskcull_draw(const maskcull_setup *setup, maskcull_tile *tiles, size_t tile_count,
                       const maskcull_vertex *vertices, size_t vertex_count,
                       const maskcull_triangle *triangles, size_t triangle_count);

/* The same, onto some whole rows of the screen's tiles: `tiles` points to the first tile of row first_row, and is as
 * many rows long as are to be drawn. The setup is that of the whole screen. Threads that draw the same triangles in
 * the same order, each onto rows of its own, leave the tiles that one maskcull_draw leaves.
 * BAD_SETUP, BAD_TILES (not whole rows, or past the last one), BAD_INDEX. */
uint32_t maskcull_draw_band(const maskcull_setup *setup, maskcull_tile *tiles, size_t tile_count, uint32_t first_row,
                            const maskcull_vertex *vertices, size_t vertex_count,
                            const maskcull_triangle *triangles, size_t triangle_count);

/* Sets triangles up, for maskcull_draw_pieces. What is drawn of them, their pieces, goes to the head of the room, in
 * order, and how many there are into `count`. A triangle has one piece; or two, where the near plane cuts it; or none,
 * where it isn't drawn. There has to be room for two pieces a triangle, so that none is lost; the room behind the
 * last piece is left as it was. Any threads may set up any slices of a mesh's triangles, into parts of one array: the
 * pieces of all slices, drawn in the order of the triangles, leave the tiles that one maskcull_draw leaves.
 * BAD_SETUP, BAD_ROOM (less than two pieces a triangle), BAD_INDEX. */
uint32_t maskcull_set_up(const maskcull_setup *setup, const maskcull_vertex *vertices, size_t vertex_count,
                         const maskcull_triangle *triangles, size_t triangle_count,
                         maskcull_piece *pieces, size_t room, size_t *count);

/* The same of positions in floats: position k is the three floats from number k * stride on, and there are
 * (float_count - 3) / stride + 1 of them, none where float_count is below 3. Pieces lie within the exact triangles: at
 * each sample that a piece covers, all of the square by the view's reach around it is met by the triangle, or by one of
 * a pair, in front of the eye, not before the near distance and no farther than the piece says. What can't be certified
 * so is left out: what is smaller than such a square, or seen from its edge; what has a position that is infinite, no
 * number, or farther than some 50 million near distances; and all where a number of the rows is infinite or none, or
 * the near distance isn't a number above 0. Triangles 2k and 2k + 1 of a call that are a b c and a c d, by the bits of
 * their positions, are such a pair: slices that part none leave the tiles of one call. There has to be room for seven
 * pieces a triangle, and scratch for each position. Of the setup the size, the winding and the grade are read.
 * BAD_SETUP, BAD_ROOM (pieces or scratch), BAD_INDEX. */
uint32_t maskcull_set_up_floats(const maskcull_setup *setup, const maskcull_view *view,
                                const float *positions, size_t float_count,
                                const maskcull_triangle *triangles, size_t triangle_count,
                                maskcull_scratch *scratch, size_t scratch_count,
                                maskcull_piece *pieces, size_t room, size_t *count);

/* Draws pieces that were set up, as maskcull_draw_band draws triangles: onto some whole rows of the screen's tiles, of
 * which `tiles` points to the first, in row first_row. The setup is that of the whole screen, with which the pieces
 * were set up; its winding isn't read here. Threads that draw the same pieces in the same order, each onto rows of its
 * own, leave the tiles that one thread leaves. A piece that doesn't reach these rows may be left out, and is best left
 * out where there are many (maskcull_piece_rows).
 * BAD_SETUP, BAD_TILES (not whole rows, or past the last one). */
uint32_t maskcull_draw_pieces(const maskcull_setup *setup, maskcull_tile *tiles, size_t tile_count, uint32_t first_row,
                              const maskcull_piece *pieces, size_t piece_count);

/* Tests the pixels of an area at distance w. OUTSIDE without a pixel in the screen; else VISIBLE where w is below the
 * near distance; else OCCLUDED where each pixel in the screen is hidden at its sample.
 * BAD_SETUP, BAD_TILES. */
uint32_t maskcull_test(const maskcull_setup *setup, const maskcull_tile *tiles, size_t tile_count,
                       const maskcull_area *area, int32_t w);

/* Tests a box as the rectangle around its corners on the screen, which is as near as its nearest corner. OUTSIDE where
 * all corners are behind the near plane (w below near_w), VISIBLE where one is or is past the guard, else as
 * maskcull_test.
 * BAD_SETUP, BAD_TILES. */
uint32_t maskcull_test_box(const maskcull_setup *setup, const maskcull_tile *tiles, size_t tile_count,
                           const maskcull_box *corners);

/* Tests a mesh triangle by triangle, each from both sides: more exact than a box, and slower. OUTSIDE without a
 * triangle, or where all vertices are behind the near plane or no triangle comes near the screen; VISIBLE where a
 * vertex is past the guard. Vertices that no triangle names don't count.
 * BAD_SETUP, BAD_TILES, BAD_INDEX. */
uint32_t maskcull_test_mesh(const maskcull_setup *setup, const maskcull_tile *tiles, size_t tile_count,
                            const maskcull_vertex *vertices, size_t vertex_count,
                            const maskcull_triangle *triangles, size_t triangle_count);

/* Tests a box of floats against pieces that maskcull_set_up_floats made: as the pixels that its points project into,
 * which is as near as its nearest corner. OUTSIDE where all of it is beside the screen or behind the eye; else VISIBLE
 * where a corner is before the near distance or farther than can be certified, and where a number is infinite or none.
 * BAD_SETUP, BAD_TILES. */
uint32_t maskcull_test_box_floats(const maskcull_setup *setup, const maskcull_tile *tiles, size_t tile_count,
                                  const maskcull_view *view, const maskcull_bounds *bounds);

/* Tests a mesh of floats, whose positions lie as those of maskcull_set_up_floats, triangle by triangle, each from both
 * sides and as a box of its three corners: VISIBLE where one is, OCCLUDED where all that aren't outside are and one is.
 * BAD_SETUP, BAD_TILES, BAD_INDEX. */
uint32_t maskcull_test_mesh_floats(const maskcull_setup *setup, const maskcull_tile *tiles, size_t tile_count,
                                   const maskcull_view *view, const float *positions, size_t float_count,
                                   const maskcull_triangle *triangles, size_t triangle_count);

/* What a subtile of a tile holds; zeros where there is no such tile or subtile. */
maskcull_subtile_state maskcull_subtile(const maskcull_tile *tiles, size_t tile_count, size_t tile, uint32_t subtile);

/* Writes what the tiles hold as a picture: the element at y * row_stride + x is the nearness that something drawn has
 * at least at the sample of pixel (x, y), or 0. In the wide grade it is divided by 256 and rounded down, so in either
 * grade it goes to 65535. More than that, as of tiles that were drawn wide and are shown narrow, is written as 65535.
 * No other element is written. `out` has out_count elements, and row_stride is how many of them lie from one row to the
 * next: the width, or more.
 * BAD_SETUP, BAD_TILES, BAD_ROOM (row_stride below the width, or out_count below (height - 1) * row_stride + width). */
uint32_t maskcull_nearness(const maskcull_setup *setup, const maskcull_tile *tiles, size_t tile_count,
                           uint16_t *out, size_t out_count, size_t row_stride);

/* The layouts that the library was built for. */
static_assert(sizeof(maskcull_setup) == 16 && offsetof(maskcull_setup, winding) == 12, "maskcull_setup");
static_assert(sizeof(maskcull_vertex) == 12 && offsetof(maskcull_vertex, w) == 8, "maskcull_vertex");
static_assert(sizeof(maskcull_triangle) == 12 && offsetof(maskcull_triangle, c) == 8, "maskcull_triangle");
static_assert(sizeof(maskcull_area) == 16 && offsetof(maskcull_area, y1) == 12, "maskcull_area");
static_assert(sizeof(maskcull_box) == 96 && offsetof(maskcull_box, corners) == 0, "maskcull_box");
static_assert(sizeof(maskcull_view) == 72 && offsetof(maskcull_view, near_distance) == 48, "maskcull_view");
static_assert(offsetof(maskcull_view, reach) == 52 && offsetof(maskcull_view, height) == 68, "maskcull_view");
static_assert(sizeof(maskcull_scratch) == 32 && offsetof(maskcull_scratch, state) == 24, "maskcull_scratch");
static_assert(sizeof(maskcull_bounds) == 24 && offsetof(maskcull_bounds, high) == 12, "maskcull_bounds");
static_assert(offsetof(maskcull_tile, references) == 0 && offsetof(maskcull_tile, workings) == 32, "maskcull_tile");
static_assert(offsetof(maskcull_tile, masks) == 64 && offsetof(maskcull_tile, count) == 96, "maskcull_tile");
static_assert(sizeof(maskcull_tile) == 100, "maskcull_tile");
static_assert(offsetof(maskcull_piece, y) == 12 && offsetof(maskcull_piece, q) == 24, "maskcull_piece");
static_assert(sizeof(maskcull_piece) == 36, "maskcull_piece");
static_assert(sizeof(maskcull_subtile_state) == 12 && offsetof(maskcull_subtile_state, mask) == 8,
              "maskcull_subtile_state");

/* From here on: help in C, around the calls. It is compiled into your program, and no proof covers it. */

/* Empty tiles for a screen, and how many. NULL and 0 where the size isn't allowed, or out of memory. */
static inline maskcull_tile *maskcull_open(uint32_t width, uint32_t height, size_t *tile_count)
{
    size_t count = maskcull_tile_count(width, height);
    maskcull_tile *tiles = count == 0 ? NULL : (maskcull_tile *)calloc(count, sizeof(maskcull_tile));
    if (tile_count != NULL) {
        *tile_count = tiles == NULL ? 0 : count;
    }
    return tiles;
}

static inline void maskcull_close(maskcull_tile *tiles)
{
    free(tiles);
}

/* The rows of tiles that a piece may change: from *first_row to before *end_row. Bands of other rows may leave it out,
 * and are the same. */
static inline void maskcull_piece_rows(const maskcull_setup *setup, const maskcull_piece *piece,
                                       uint32_t *first_row, uint32_t *end_row)
{
    const int32_t row_count = (int32_t)((setup->height + 7) / 8), row = 16 * 8;
    const int32_t a = piece->y[0], b = piece->y[1], c = piece->y[2];
    const int32_t upper = a < b ? (a < c ? a : c) : (b < c ? b : c), lower = a > b ? (a > c ? a : c) : (b > c ? b : c);
    const int32_t first = upper < 0 ? 0 : upper / row, end = lower < 0 ? 0 : lower / row + 1;
    *first_row = (uint32_t)(first < row_count ? first : row_count);
    *end_row = (uint32_t)(end < row_count ? end : row_count);
}

/* Whether a pointer can be one to so many elements. */
static inline int maskcull_is_there(const void *elements, size_t count)
{
    return elements != NULL || count == 0;
}

/* The same calls, for pointers that may be null. They do nothing and return MASKCULL_NULL where one is null that has to
 * point to something; beside a count of 0 a null pointer is taken as no elements. */
static inline uint32_t maskcull_checked_clear(maskcull_tile *tiles, size_t tile_count)
{
    if (!maskcull_is_there(tiles, tile_count)) {
        return MASKCULL_NULL;
    }
    if (tile_count != 0) {
        maskcull_clear(tiles, tile_count);
    }
    return MASKCULL_DONE;
}

static inline uint32_t maskcull_checked_draw(const maskcull_setup *setup, maskcull_tile *tiles, size_t tile_count,
                                             const maskcull_vertex *vertices, size_t vertex_count,
                                             const maskcull_triangle *triangles, size_t triangle_count)
{
    const maskcull_vertex no_vertex = {0, 0, 0};
    const maskcull_triangle no_triangle = {0, 0, 0};
    maskcull_tile no_tile;
    if (setup == NULL || !maskcull_is_there(tiles, tile_count) || !maskcull_is_there(vertices, vertex_count)
        || !maskcull_is_there(triangles, triangle_count)) {
        return MASKCULL_NULL;
    }
    return maskcull_draw(setup, tiles == NULL ? &no_tile : tiles, tile_count,
                         vertices == NULL ? &no_vertex : vertices, vertex_count,
                         triangles == NULL ? &no_triangle : triangles, triangle_count);
}

static inline uint32_t maskcull_checked_draw_band(const maskcull_setup *setup, maskcull_tile *tiles, size_t tile_count,
                                                  uint32_t first_row,
                                                  const maskcull_vertex *vertices, size_t vertex_count,
                                                  const maskcull_triangle *triangles, size_t triangle_count)
{
    const maskcull_vertex no_vertex = {0, 0, 0};
    const maskcull_triangle no_triangle = {0, 0, 0};
    maskcull_tile no_tile;
    if (setup == NULL || !maskcull_is_there(tiles, tile_count) || !maskcull_is_there(vertices, vertex_count)
        || !maskcull_is_there(triangles, triangle_count)) {
        return MASKCULL_NULL;
    }
    return maskcull_draw_band(setup, tiles == NULL ? &no_tile : tiles, tile_count, first_row,
                              vertices == NULL ? &no_vertex : vertices, vertex_count,
                              triangles == NULL ? &no_triangle : triangles, triangle_count);
}

static inline uint32_t maskcull_checked_set_up(const maskcull_setup *setup,
                                               const maskcull_vertex *vertices, size_t vertex_count,
                                               const maskcull_triangle *triangles, size_t triangle_count,
                                               maskcull_piece *pieces, size_t room, size_t *count)
{
    const maskcull_vertex no_vertex = {0, 0, 0};
    const maskcull_triangle no_triangle = {0, 0, 0};
    maskcull_piece no_piece;
    if (setup == NULL || count == NULL || !maskcull_is_there(vertices, vertex_count)
        || !maskcull_is_there(triangles, triangle_count) || !maskcull_is_there(pieces, room)) {
        return MASKCULL_NULL;
    }
    return maskcull_set_up(setup, vertices == NULL ? &no_vertex : vertices, vertex_count,
                           triangles == NULL ? &no_triangle : triangles, triangle_count,
                           pieces == NULL ? &no_piece : pieces, room, count);
}

static inline uint32_t maskcull_checked_set_up_floats(const maskcull_setup *setup, const maskcull_view *view,
                                                      const float *positions, size_t float_count,
                                                      const maskcull_triangle *triangles, size_t triangle_count,
                                                      maskcull_scratch *scratch, size_t scratch_count,
                                                      maskcull_piece *pieces, size_t room, size_t *count)
{
    const float no_float = 0;
    const maskcull_triangle no_triangle = {0, 0, 0};
    maskcull_scratch no_scratch;
    maskcull_piece no_piece;
    if (setup == NULL || view == NULL || count == NULL || !maskcull_is_there(positions, float_count)
        || !maskcull_is_there(triangles, triangle_count) || !maskcull_is_there(scratch, scratch_count)
        || !maskcull_is_there(pieces, room)) {
        return MASKCULL_NULL;
    }
    return maskcull_set_up_floats(setup, view, positions == NULL ? &no_float : positions, float_count,
                                  triangles == NULL ? &no_triangle : triangles, triangle_count,
                                  scratch == NULL ? &no_scratch : scratch, scratch_count,
                                  pieces == NULL ? &no_piece : pieces, room, count);
}

static inline uint32_t maskcull_checked_draw_pieces(const maskcull_setup *setup, maskcull_tile *tiles,
                                                    size_t tile_count, uint32_t first_row,
                                                    const maskcull_piece *pieces, size_t piece_count)
{
    const maskcull_piece no_piece = {{0}, {0}, {0}};
    maskcull_tile no_tile;
    if (setup == NULL || !maskcull_is_there(tiles, tile_count) || !maskcull_is_there(pieces, piece_count)) {
        return MASKCULL_NULL;
    }
    return maskcull_draw_pieces(setup, tiles == NULL ? &no_tile : tiles, tile_count, first_row,
                                pieces == NULL ? &no_piece : pieces, piece_count);
}

static inline uint32_t maskcull_checked_test(const maskcull_setup *setup, const maskcull_tile *tiles, size_t tile_count,
                                             const maskcull_area *area, int32_t w)
{
    if (setup == NULL || tiles == NULL || area == NULL) {
        return MASKCULL_NULL;
    }
    return maskcull_test(setup, tiles, tile_count, area, w);
}

static inline uint32_t maskcull_checked_test_box(const maskcull_setup *setup, const maskcull_tile *tiles,
                                                 size_t tile_count, const maskcull_box *corners)
{
    if (setup == NULL || tiles == NULL || corners == NULL) {
        return MASKCULL_NULL;
    }
    return maskcull_test_box(setup, tiles, tile_count, corners);
}

static inline uint32_t maskcull_checked_test_mesh(const maskcull_setup *setup, const maskcull_tile *tiles,
                                                  size_t tile_count,
                                                  const maskcull_vertex *vertices, size_t vertex_count,
                                                  const maskcull_triangle *triangles, size_t triangle_count)
{
    const maskcull_vertex no_vertex = {0, 0, 0};
    const maskcull_triangle no_triangle = {0, 0, 0};
    if (setup == NULL || tiles == NULL || !maskcull_is_there(vertices, vertex_count)
        || !maskcull_is_there(triangles, triangle_count)) {
        return MASKCULL_NULL;
    }
    return maskcull_test_mesh(setup, tiles, tile_count, vertices == NULL ? &no_vertex : vertices, vertex_count,
                              triangles == NULL ? &no_triangle : triangles, triangle_count);
}

static inline uint32_t maskcull_checked_test_box_floats(const maskcull_setup *setup, const maskcull_tile *tiles,
                                                        size_t tile_count, const maskcull_view *view,
                                                        const maskcull_bounds *bounds)
{
    if (setup == NULL || tiles == NULL || view == NULL || bounds == NULL) {
        return MASKCULL_NULL;
    }
    return maskcull_test_box_floats(setup, tiles, tile_count, view, bounds);
}

static inline uint32_t maskcull_checked_test_mesh_floats(const maskcull_setup *setup, const maskcull_tile *tiles,
                                                         size_t tile_count, const maskcull_view *view,
                                                         const float *positions, size_t float_count,
                                                         const maskcull_triangle *triangles, size_t triangle_count)
{
    const float no_float = 0;
    const maskcull_triangle no_triangle = {0, 0, 0};
    if (setup == NULL || tiles == NULL || view == NULL || !maskcull_is_there(positions, float_count)
        || !maskcull_is_there(triangles, triangle_count)) {
        return MASKCULL_NULL;
    }
    return maskcull_test_mesh_floats(setup, tiles, tile_count, view, positions == NULL ? &no_float : positions,
                                     float_count, triangles == NULL ? &no_triangle : triangles, triangle_count);
}

static inline uint32_t maskcull_checked_nearness(const maskcull_setup *setup, const maskcull_tile *tiles,
                                                 size_t tile_count,
                                                 uint16_t *out, size_t out_count, size_t row_stride)
{
    if (setup == NULL || tiles == NULL || out == NULL) {
        return MASKCULL_NULL;
    }
    return maskcull_nearness(setup, tiles, tile_count, out, out_count, row_stride);
}

/* Zeros also where the tiles are null. */
static inline maskcull_subtile_state maskcull_checked_subtile(const maskcull_tile *tiles, size_t tile_count,
                                                              size_t tile, uint32_t subtile)
{
    const maskcull_subtile_state none = {0, 0, 0};
    return tiles == NULL ? none : maskcull_subtile(tiles, tile_count, tile, subtile);
}

#ifdef __cplusplus
}
#endif

#endif
