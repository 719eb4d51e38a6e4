/* Each call of maskcull_frame.h with what isn't allowed: it returns what the header says, and draws nothing. */
#include "maskcull_frame.h"

#include <math.h>
#include <stdio.h>
#include <string.h>

enum { OWN = MASKCULL_OWN_WINDING };

static int faults = 0;

static const float clip[16] = {1, 0, 0, 0, 0, 1, 0, 0, 0, 0, -1, -1, 0, 0, -0.25f, 0};
static const float wall[4][3] = {{-9, 9, -4}, {9, 9, -4}, {9, -9, -4}, {-9, -9, -4}};
static const float box[6] = {-1, -1, -9, 1, 1, -8};
static const uint16_t quad[] = {0, 1, 2, 0, 2, 3}, past[] = {0, 1, 4};
static const uint32_t long_quad[] = {0, 1, 2, 0, 2, 3}, long_past[] = {0, 1, 0xffffffff};

static void is(const char *what, unsigned long found, unsigned long wanted)
{
    if (found == wanted) return;
    printf("%s: %lu, not %lu\n", what, found, wanted);
    faults++;
}

/* The reason of a frame of 64 by 32 pixels; 0 where there is one, which is freed. */
static uint32_t reason_of(float near_distance, const void *options)
{
    uint32_t reason = 99;
    maskcull_frame *f = maskcull_frame_make(64, 32, near_distance, (const maskcull_frame_options *)options, &reason);
    is("a frame and no reason, or the other way round", f != NULL, reason == MASKCULL_FRAME_MADE);
    is("a text", strlen(maskcull_frame_text(reason)) > 10, 1);
    maskcull_frame_free(f);
    return reason;
}

static uint32_t reason_of_size(uint32_t width, uint32_t height)
{
    uint32_t reason = 99;
    maskcull_frame *f = maskcull_frame_make(width, height, 0.1f, NULL, &reason);
    is("a frame without a place for a reason", maskcull_frame_make(width, height, 0, NULL, NULL) != NULL, 0);
    maskcull_frame_free(f);
    return reason;
}

static void try_sizes(void)
{
    is("no width", reason_of_size(0, 32), MASKCULL_FRAME_NO_PIXELS);
    is("no height", reason_of_size(64, 0), MASKCULL_FRAME_NO_PIXELS);
    is("width 2049", reason_of_size(2049, 32), MASKCULL_FRAME_TOO_LARGE);
    is("height 2^32 - 1", reason_of_size(64, 0xffffffff), MASKCULL_FRAME_TOO_LARGE);
    is("1 by 1", reason_of_size(1, 1), MASKCULL_FRAME_MADE);
    is("2048 by 2048", reason_of_size(2048, 2048), MASKCULL_FRAME_MADE);
    is("near 0", reason_of(0, NULL), MASKCULL_FRAME_BAD_NEAR_DISTANCE);
    is("near below 0", reason_of(-1, NULL), MASKCULL_FRAME_BAD_NEAR_DISTANCE);
    is("near NaN", reason_of(NAN, NULL), MASKCULL_FRAME_BAD_NEAR_DISTANCE);
    is("near infinite", reason_of(INFINITY, NULL), MASKCULL_FRAME_BAD_NEAR_DISTANCE);
}

/* The reason of options in which one field is set. */
static uint32_t reason_with(size_t field, uint32_t value)
{
    maskcull_frame_options chosen = {sizeof chosen, 0, 0, 0, 0, 0, 0, 0, 0, 0, 0};
    memcpy((unsigned char *)&chosen + field, &value, sizeof value);
    return reason_of(0.1f, &chosen);
}

#define WITH(field, value) reason_with(offsetof(maskcull_frame_options, field), value)

static void try_options(void)
{
    is("no option", WITH(exact, 0), MASKCULL_FRAME_MADE);
    is("exact", WITH(exact, 1), MASKCULL_FRAME_NO_EXACT);
    is("exact 2", WITH(exact, 2), MASKCULL_FRAME_BAD_FIELD);
    is("reach", WITH(reach, 8), MASKCULL_FRAME_STRAY_FIELD);
    is("share", WITH(share, 1), MASKCULL_FRAME_STRAY_FIELD);
    is("clockwise", WITH(winding, 1), MASKCULL_FRAME_MADE);
    is("counterclockwise", WITH(winding, 2), MASKCULL_FRAME_MADE);
    is("both windings", WITH(winding, 3), MASKCULL_FRAME_BAD_WINDING);
    is("a winding", WITH(winding, 0xffffffff), MASKCULL_FRAME_BAD_WINDING);
    is("rows", WITH(by_rows, 1), MASKCULL_FRAME_MADE);
    is("rows 2", WITH(by_rows, 2), MASKCULL_FRAME_BAD_FIELD);
    is("y down", WITH(y_is_down, 1), MASKCULL_FRAME_MADE);
    is("y down 256", WITH(y_is_down, 256), MASKCULL_FRAME_BAD_FIELD);
    is("narrow", WITH(narrow, 1), MASKCULL_FRAME_MADE);
    is("narrow 16", WITH(narrow, 16), MASKCULL_FRAME_BAD_FIELD);
    is("orthographic 2", WITH(orthographic, 2), MASKCULL_FRAME_BAD_FIELD);
    is("depths 0 and 0", WITH(orthographic, 1), MASKCULL_FRAME_BAD_DEPTHS);
    is("a depth of a view in perspective", WITH(at_far, 0x3f800000), MASKCULL_FRAME_STRAY_FIELD);
    is("size 0", WITH(size, 0), MASKCULL_FRAME_BAD_SIZE);
    is("size 43", WITH(size, 43), MASKCULL_FRAME_BAD_SIZE);
    is("size 2^32 - 4", WITH(size, 0xfffffffc), MASKCULL_FRAME_BAD_SIZE);
    maskcull_frame_options flat = {sizeof flat, 0, 0, 0, 0, 0, 0, 0, 1, -1, 1};
    is("orthographic, and a near distance that isn't read", reason_of(NAN, &flat), MASKCULL_FRAME_MADE);
    flat.at_far = NAN;
    is("a depth that is no number", reason_of(0.1f, &flat), MASKCULL_FRAME_BAD_DEPTHS);
    flat.at_far = -1;
    is("two equal depths", reason_of(0.1f, &flat), MASKCULL_FRAME_BAD_DEPTHS);
    flat.exact = 1;
    is("exact and orthographic", reason_of(0.1f, &flat), MASKCULL_FRAME_NO_EXACT);
    /* of an older version, whose struct ends here; nothing lies behind it */
    const uint32_t size_alone[1] = {sizeof size_alone}, short_one[3] = {sizeof short_one, 0, 8};
    is("a struct of its size alone", reason_of(0.1f, size_alone), MASKCULL_FRAME_MADE);
    is("a short struct with a reach", reason_of(0.1f, short_one), MASKCULL_FRAME_STRAY_FIELD);
    uint32_t long_one[20] = {sizeof long_one};
    is("a longer struct", reason_of(0.1f, long_one), MASKCULL_FRAME_MADE);
    long_one[19] = 1;
    is("a longer struct with a field that isn't known", reason_of(0.1f, long_one), MASKCULL_FRAME_BAD_FIELD);
}

static void try_draws(maskcull_frame *f)
{
    uint8_t found = 0;
    is("no frame", maskcull_frame_draw(NULL, clip, wall, 12, 4, quad, 2, 6, OWN), MASKCULL_NULL);
    is("no matrix", maskcull_frame_draw(f, NULL, wall, 12, 4, quad, 2, 6, OWN), MASKCULL_NULL);
    is("no positions", maskcull_frame_draw(f, clip, NULL, 12, 4, quad, 2, 6, OWN), MASKCULL_NULL);
    is("no indices", maskcull_frame_draw(f, clip, wall, 12, 4, NULL, 2, 6, OWN), MASKCULL_NULL);
    is("a byte an index", maskcull_frame_draw(f, clip, wall, 12, 4, quad, 1, 6, OWN), MASKCULL_BAD_SETUP);
    is("8 bytes an index", maskcull_frame_draw(f, clip, wall, 12, 4, quad, 8, 0, OWN), MASKCULL_BAD_SETUP);
    is("winding 4", maskcull_frame_draw(f, clip, wall, 12, 4, quad, 2, 6, 4), MASKCULL_BAD_SETUP);
    is("past the end", maskcull_frame_draw(f, clip, wall, 12, 4, past, 2, 3, OWN), MASKCULL_BAD_INDEX);
    is("far past the end", maskcull_frame_draw(f, clip, wall, 12, 4, long_past, 4, 3, OWN), MASKCULL_BAD_INDEX);
    is("without vertices", maskcull_frame_draw(f, clip, NULL, 12, 0, quad, 2, 6, OWN), MASKCULL_BAD_INDEX);
    is("nothing", maskcull_frame_draw(f, clip, NULL, 0, 0, NULL, 2, 0, OWN), MASKCULL_DONE);
    is("too few indices", maskcull_frame_draw(f, clip, wall, 12, 4, quad, 2, 2, OWN), MASKCULL_DONE);
    is("clockwise ones dropped",
       maskcull_frame_draw(f, clip, wall, 12, 4, quad, 2, 6, MASKCULL_DROPS_CLOCKWISE), MASKCULL_DONE);
    is("nothing is drawn", maskcull_frame_test_boxes(f, clip, box, 1, &found), 0);
    is("a box in sight", found, MASKCULL_VISIBLE);
}

static void try_tests(maskcull_frame *f)
{
    uint8_t found[2] = {0, 0};
    is("counterclockwise ones dropped",
       maskcull_frame_draw(f, clip, wall, 12, 4, long_quad, 4, 6, MASKCULL_DROPS_COUNTERCLOCKWISE), MASKCULL_DONE);
    is("a hidden box", maskcull_frame_test_boxes(f, clip, box, 1, found), 1);
    is("the verdict", found[0], MASKCULL_OCCLUDED);
    is("no boxes", maskcull_frame_test_boxes(f, clip, NULL, 2, found), 0);
    is("the verdict of no box", found[0] == MASKCULL_VISIBLE && found[1] == MASKCULL_VISIBLE, 1);
    is("no frame to test", maskcull_frame_test_boxes(NULL, clip, box, 1, found), 0);
    is("no matrix to test by", maskcull_frame_test_boxes(f, NULL, box, 1, found), 0);
    is("no verdicts", maskcull_frame_test_boxes(f, clip, box, 1, NULL), 0);
    is("a mesh", maskcull_frame_test_mesh(f, clip, wall, 12, 4, quad, 2, 6), MASKCULL_VISIBLE);
    is("a mesh of nothing", maskcull_frame_test_mesh(f, clip, wall, 12, 4, quad, 2, 0), MASKCULL_OUTSIDE);
    is("a mesh past the end", maskcull_frame_test_mesh(f, clip, wall, 12, 4, past, 2, 3), MASKCULL_VISIBLE);
    is("a mesh far past", maskcull_frame_test_mesh(f, clip, wall, 12, 4, long_past, 4, 3), MASKCULL_VISIBLE);
    is("a mesh by bytes", maskcull_frame_test_mesh(f, clip, wall, 12, 4, quad, 1, 0), MASKCULL_VISIBLE);
    is("a mesh without a frame", maskcull_frame_test_mesh(NULL, clip, wall, 12, 4, quad, 2, 6), MASKCULL_VISIBLE);
    is("a mesh without a matrix", maskcull_frame_test_mesh(f, NULL, wall, 12, 4, quad, 2, 6), MASKCULL_VISIBLE);
    is("a mesh without positions", maskcull_frame_test_mesh(f, clip, NULL, 12, 4, quad, 2, 6), MASKCULL_VISIBLE);
    const float behind[3][3] = {{-1, 1, -8}, {1, 1, -8}, {0, -1, -8}};
    is("a hidden mesh", maskcull_frame_test_mesh(f, clip, behind, 12, 3, quad, 2, 3), MASKCULL_OCCLUDED);
}

/* A picture of a window whose width is no multiple of 8 and whose height is none of 4. */
static void try_pictures(maskcull_frame *f)
{
    enum { WIDTH = 61, HEIGHT = 31, ROW = 70, ALL = ROW * HEIGHT };
    uint16_t picture[ALL];
    maskcull_frame *odd = maskcull_frame_make(WIDTH, HEIGHT, 0.1f, NULL, NULL);
    is("drawn", maskcull_frame_draw(odd, clip, wall, 12, 4, quad, 2, 6, OWN), MASKCULL_DONE);
    memset(picture, 0, sizeof picture);
    const size_t least = (HEIGHT - 1) * ROW + WIDTH;
    is("no frame to show", maskcull_frame_nearness(NULL, picture, ALL, ROW), MASKCULL_NULL);
    is("no picture", maskcull_frame_nearness(odd, NULL, ALL, ROW), MASKCULL_NULL);
    is("no room", maskcull_frame_nearness(odd, picture, least - 1, ROW), MASKCULL_BAD_ROOM);
    is("no room at all", maskcull_frame_nearness(odd, picture, 0, ROW), MASKCULL_BAD_ROOM);
    is("a short row", maskcull_frame_nearness(odd, picture, ALL, WIDTH - 1), MASKCULL_BAD_ROOM);
    is("rows of 0", maskcull_frame_nearness(odd, picture, ALL, 0), MASKCULL_BAD_ROOM);
    is("long rows", maskcull_frame_nearness(odd, picture, ALL, SIZE_MAX), MASKCULL_BAD_ROOM);
    is("a picture", maskcull_frame_nearness(odd, picture, least, ROW), MASKCULL_DONE);
    for (int k = 0; k < ALL; k++) is("a pixel", picture[k] != 0, k % ROW < WIDTH);
    maskcull_frame_free(odd);
    is("no room for whole tiles", maskcull_frame_nearness(f, picture, 64 * 32 - 1, 64), MASKCULL_BAD_ROOM);
    is("whole tiles", maskcull_frame_nearness(f, picture, 64 * 32, 64), MASKCULL_DONE);
}

int main(void)
{
    try_sizes();
    try_options();
    maskcull_frame_free(NULL);
    maskcull_frame_clear(NULL);
    is("a reason that isn't one", strlen(maskcull_frame_text(0xffffffff)) > 10, 1);
    is("version", maskcull_frame_version(), MASKCULL_VERSION_NUMBER);
    maskcull_frame *f = maskcull_frame_make(64, 32, 0.1f, NULL, NULL);
    try_draws(f);
    try_tests(f);
    try_pictures(f);
    maskcull_frame_clear(f);
    uint8_t found = 0;
    is("cleared", maskcull_frame_test_boxes(f, clip, box, 1, &found), 0);
    maskcull_frame_free(f);
    puts(faults == 0 ? "all as the header says" : "faults");
    return faults != 0;
}
