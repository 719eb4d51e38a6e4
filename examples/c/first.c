/* A wall over the left half of a small screen, and what it hides: each call once or more, each answer at least once.
 *
 *     cc -std=c11 -Iinclude examples/c/first.c crates/maskcull_c/out/libmaskcull_c.a -o first && ./first
 *
 * The screen has 64 by 32 pixels, so 2 by 4 tiles, and the near distance is 16. The wall stands at w = 48, three times
 * the near distance: its nearness is 65535 * 16 / 48 = 21845, with no rest. It reaches from x / w = -1 to 0 and from
 * y / w = 1 to -1, so over the pixels 0 to 31 of each row. The other distances:
 *
 *     w           24      48      49      96
 *     nearness    43690   21845   21400   10923    (rounded up: of what is asked)
 *
 * examples/c/first.stdout says what must come out, as it follows from these numbers. */
#include "maskcull.h"

#include <stdio.h>
#include <string.h>

enum { WIDTH = 64, HEIGHT = 32, NEAR = 16, TILE_COLUMNS = 2, TILE_ROWS = 4, TILES = TILE_COLUMNS * TILE_ROWS };

static const maskcull_setup setup = {WIDTH, HEIGHT, NEAR, MASKCULL_KEEPS_BOTH};

/* Clockwise from the upper left corner. */
static const maskcull_vertex wall[4] = {{-48, 48, 48}, {0, 48, 48}, {0, -48, 48}, {-48, -48, 48}};
static const maskcull_triangle quad[2] = {{0, 1, 2}, {0, 2, 3}};

static const char *word_of(uint32_t status)
{
    switch (status) {
    case MASKCULL_DONE: return "done";
    case MASKCULL_BAD_SETUP: return "bad setup";
    case MASKCULL_BAD_TILES: return "bad tiles";
    case MASKCULL_BAD_INDEX: return "bad index";
    case MASKCULL_NULL: return "null";
    case MASKCULL_BAD_ROOM: return "bad room";
    case MASKCULL_VISIBLE: return "visible";
    case MASKCULL_OCCLUDED: return "occluded";
    case MASKCULL_OUTSIDE: return "outside";
    default: return "?";
    }
}

static void say(const char *what, uint32_t status)
{
    printf("%s: %s\n", what, word_of(status));
}

static void say_whether(const char *what, int is_so)
{
    printf("%s: %s\n", what, is_so ? "yes" : "no");
}

static void say_subtile(const char *what, maskcull_subtile_state held)
{
    printf("%s: %u %u %08x\n", what, (unsigned)held.reference, (unsigned)held.working, (unsigned)held.mask);
}

/* The first area has 24 by 24 pixels, all of them the wall's. */
static void test_areas(const maskcull_tile *tiles)
{
    const maskcull_area over = {4, 4, 28, 28}, across = {28, 4, 36, 12};
    const maskcull_area beside = {64, 0, 70, 4}, beyond = {-9, -9, 9, 9};
    say("an area behind the wall", maskcull_test(&setup, tiles, TILES, &over, 96));
    say("a little behind it", maskcull_test(&setup, tiles, TILES, &over, 49));
    say("as near as the wall", maskcull_test(&setup, tiles, TILES, &over, 48));
    say("in front of it", maskcull_test(&setup, tiles, TILES, &over, 24));
    say("before the near distance", maskcull_test(&setup, tiles, TILES, &over, 15));
    say("behind, but past the wall's end", maskcull_test(&setup, tiles, TILES, &across, 96));
    say("behind, and past the screen's corner", maskcull_test(&setup, tiles, TILES, &beyond, 96));
    say("beside the screen", maskcull_test(&setup, tiles, TILES, &beside, 96));
}

/* The eight corners between two distances, over a half to a quarter of the way to the left at the far one. */
static maskcull_box box_between(int32_t near_w, int32_t far_w)
{
    maskcull_box box;
    for (int k = 0; k < 8; k++) {
        const int32_t unit = far_w / 4;
        const maskcull_vertex corner = {k & 1 ? -unit : -2 * unit, k & 2 ? -unit : unit, k & 4 ? near_w : far_w};
        box.corners[k] = corner;
    }
    return box;
}

/* Of the first box the nearest corners are at w = 96, and x / w is from -64 / 96 to -32 / 128: pixels 10 to 24. */
static void test_boxes(const maskcull_tile *tiles)
{
    const maskcull_box behind = box_between(96, 128), before = box_between(24, 32);
    const maskcull_box cut = box_between(8, 128), gone = box_between(6, 8);
    say("a box behind the wall", maskcull_test_box(&setup, tiles, TILES, &behind));
    say("a box in front of it", maskcull_test_box(&setup, tiles, TILES, &before));
    say("a box that the near plane cuts", maskcull_test_box(&setup, tiles, TILES, &cut));
    say("a box behind the near plane", maskcull_test_box(&setup, tiles, TILES, &gone));
}

static uint32_t test_quad(const maskcull_tile *tiles, int32_t left_w, int32_t right_w)
{
    const maskcull_vertex corners[4] = {{-left_w / 2, left_w / 2, left_w},
                                        {-right_w / 4, right_w / 2, right_w},
                                        {-right_w / 4, -right_w / 2, right_w},
                                        {-left_w / 2, -left_w / 2, left_w}};
    return maskcull_test_mesh(&setup, tiles, TILES, corners, 4, quad, 2);
}

/* Quads over the pixels from 16 to 23, in the middle rows. */
static void test_meshes(const maskcull_tile *tiles)
{
    say("a mesh behind the wall", test_quad(tiles, 96, 96));
    say("a mesh that runs into it", test_quad(tiles, 96, 24));
    say("a mesh behind the near plane", test_quad(tiles, 8, 8));
    say("a mesh without a triangle", maskcull_test_mesh(&setup, tiles, TILES, wall, 4, quad, 0));
}

/* What is refused leaves the tiles as they were. */
static void be_refused(maskcull_tile *tiles)
{
    const maskcull_setup odd = {60, HEIGHT, NEAR, MASKCULL_KEEPS_BOTH};
    maskcull_tile before[TILES];
    memcpy(before, tiles, sizeof before);
    say("a width of 60", maskcull_draw(&odd, tiles, TILES, wall, 4, quad, 2));
    say("a tile too few", maskcull_draw(&setup, tiles, TILES - 1, wall, 4, quad, 2));
    say("three vertices of four", maskcull_draw(&setup, tiles, TILES, wall, 3, quad, 2));
    say("a band past the last row", maskcull_draw_band(&setup, tiles, TILES, 1, wall, 4, quad, 2));
    say("no tiles at all", maskcull_checked_draw(&setup, NULL, TILES, wall, 4, quad, 2));
    say("no vertices, and no triangles", maskcull_checked_draw(&setup, tiles, TILES, NULL, 0, NULL, 0));
    say_whether("the tiles are as they were", memcmp(before, tiles, sizeof before) == 0);
}

/* Two bands of two rows each leave what one call leaves. */
static void draw_by_bands(const maskcull_tile *whole)
{
    maskcull_tile tiles[TILES];
    const size_t half = TILES / 2;
    memset(tiles, 0, sizeof tiles); /* empty tiles, before any call sees them */
    say("the upper band", maskcull_draw_band(&setup, tiles, half, 0, wall, 4, quad, 2));
    say("the lower band", maskcull_draw_band(&setup, tiles + half, half, TILE_ROWS / 2, wall, 4, quad, 2));
    say_whether("both make the same tiles", memcmp(tiles, whole, sizeof tiles) == 0);
}

/* The wall's triangles, set up one by one into parts of one array, and drawn onto two bands, leave the same. */
static void draw_by_pieces(const maskcull_tile *whole)
{
    maskcull_tile tiles[TILES];
    maskcull_piece pieces[4];
    size_t first = 0, second = 0;
    const size_t half = TILES / 2;
    memset(tiles, 0, sizeof tiles);
    say("room for one piece too few", maskcull_set_up(&setup, wall, 4, quad, 2, pieces, 3, &first));
    say("the first triangle", maskcull_set_up(&setup, wall, 4, quad, 1, pieces, 2, &first));
    say("the second triangle", maskcull_set_up(&setup, wall, 4, quad + 1, 1, pieces + 2, 2, &second));
    printf("pieces: %u and %u\n", (unsigned)first, (unsigned)second);
    say("onto a row too many", maskcull_draw_pieces(&setup, tiles, TILES, 1, pieces, first));
    for (uint32_t band = 0; band < 2; band++) {
        maskcull_tile *rows = tiles + band * half;
        const uint32_t first_row = band * (TILE_ROWS / 2);
        say("the first piece onto a band", maskcull_draw_pieces(&setup, rows, half, first_row, pieces, first));
        say("the second piece onto it", maskcull_draw_pieces(&setup, rows, half, first_row, pieces + 2, second));
    }
    say_whether("they make the same tiles", memcmp(tiles, whole, sizeof tiles) == 0);
    say("no pieces at all", maskcull_checked_set_up(&setup, wall, 4, quad, 0, NULL, 0, &first));
    say("and none drawn", maskcull_checked_draw_pieces(&setup, tiles, TILES, 0, NULL, first));
}

/* A picture has the wall's nearness in its left half. Four elements behind each row are left as they were. */
static void show(const maskcull_tile *tiles)
{
    enum { STRIDE = WIDTH + 4, ELEMENTS = (HEIGHT - 1) * STRIDE + WIDTH };
    uint16_t picture[ELEMENTS];
    int is_right = 1;
    for (size_t i = 0; i < ELEMENTS; i++) {
        picture[i] = 7;
    }
    say("rows shorter than the screen", maskcull_nearness(&setup, tiles, TILES, picture, ELEMENTS, WIDTH - 1));
    say("an element too few", maskcull_nearness(&setup, tiles, TILES, picture, ELEMENTS - 1, STRIDE));
    say("a picture", maskcull_nearness(&setup, tiles, TILES, picture, ELEMENTS, STRIDE));
    for (size_t i = 0; i < ELEMENTS; i++) {
        const uint16_t expected = i % STRIDE < WIDTH / 2 ? 21845 : i % STRIDE < WIDTH ? 0 : 7;
        is_right = is_right && picture[i] == expected;
    }
    say_whether("it shows the wall alone", is_right);
}

/* A wall over the left half at w = 4000, in each grade. Nearness, rounded down of the wall and up of the areas:
 *
 *     w           4000               4001
 *     narrow      262 and 263        263
 *     wide        67108 and 67109    67093 */
static void tell_distances_apart(const char *grade, uint32_t winding)
{
    const maskcull_setup chosen = {WIDTH, HEIGHT, NEAR, winding};
    const maskcull_vertex far_wall[4] = {{-4000, 4000, 4000}, {0, 4000, 4000}, {0, -4000, 4000}, {-4000, -4000, 4000}};
    const maskcull_area over = {4, 4, 28, 28};
    maskcull_tile tiles[TILES];
    memset(tiles, 0, sizeof tiles);
    printf("%s\n", grade);
    say("a wall far off", maskcull_draw(&chosen, tiles, TILES, far_wall, 4, quad, 2));
    say_subtile("the first subtile", maskcull_subtile(tiles, TILES, 0, 0));
    say("an area a little behind it", maskcull_test(&chosen, tiles, TILES, &over, 4001));
    say("as near as it", maskcull_test(&chosen, tiles, TILES, &over, 4000));
}

int main(void)
{
    size_t tile_count;
    maskcull_tile *tiles = maskcull_open(WIDTH, HEIGHT, &tile_count);
    if (tiles == NULL) {
        return 1;
    }
    printf("tiles: %u, of a width of 60: %u\n", (unsigned)tile_count, (unsigned)maskcull_tile_count(60, HEIGHT));
    const maskcull_area anything = {0, 0, 8, 4};
    say("before the wall is drawn", maskcull_test(&setup, tiles, tile_count, &anything, 96));
    say("drawn", maskcull_draw(&setup, tiles, tile_count, wall, 4, quad, 2));
    say_subtile("the first subtile", maskcull_subtile(tiles, tile_count, 0, 0));
    say_subtile("the first of the right half", maskcull_subtile(tiles, tile_count, 1, 0));
    say_subtile("one that isn't there", maskcull_subtile(tiles, tile_count, tile_count, 0));
    test_areas(tiles);
    test_boxes(tiles);
    test_meshes(tiles);
    be_refused(tiles);
    draw_by_bands(tiles);
    draw_by_pieces(tiles);
    show(tiles);
    maskcull_clear(tiles, tile_count);
    const maskcull_tile zero_bytes = {{0}, {0}, {0}, 0};
    say_whether("a cleared tile is zero bytes", memcmp(&tiles[0], &zero_bytes, sizeof zero_bytes) == 0);
    tell_distances_apart("narrow", MASKCULL_KEEPS_BOTH);
    tell_distances_apart("wide", MASKCULL_KEEPS_BOTH + MASKCULL_WIDE);
    const maskcull_setup no_winding = {WIDTH, HEIGHT, NEAR, 3 + MASKCULL_WIDE};
    say("wide, with a winding of 3", maskcull_draw(&no_winding, tiles, tile_count, wall, 4, quad, 2));
    maskcull_close(tiles);
    return 0;
}
