/* Forty walls and a thousand boxes at places that a row of numbers gives: how many boxes are hidden, and a sum of the
 * picture. The same program stands in each language's folder, and prints the same two lines. With a word behind it, it
 * also tells how many microseconds a test of all boxes takes.
 *
 * All coordinates are small whole numbers and quarters, so no language rounds one. */
#include "maskcull_frame.h"

#include <inttypes.h>
#include <stdio.h>
#include <time.h>

enum { WIDTH = 1280, HEIGHT = 720, WALLS = 40, BOXES = 1000 };

static uint32_t state = 1;

static float next(uint32_t below)
{
    state = (state * 1103515245u + 12345u) & 0x7fffffff;
    return (float)((state >> 16) % below);
}

static int draw_walls(maskcull_frame *frame, const float to_clip[16])
{
    const uint16_t indices[] = {0, 1, 2, 0, 2, 3};
    for (int k = 0; k < WALLS; k++) {
        const float x = next(64) - 32, z = -4 - next(60), half = 1 + next(4), top = next(8);
        const float wall[4][3] = {{x - half, top, z}, {x + half, top, z}, {x + half, -4, z}, {x - half, -4, z}};
        const uint32_t status = maskcull_frame_draw(frame, to_clip, wall, sizeof wall[0], 4, indices, sizeof indices[0],
                                                    6, MASKCULL_OWN_WINDING);
        if (status != MASKCULL_DONE) return 0;
    }
    return 1;
}

static float boxes[BOXES][6];
static uint8_t verdicts[BOXES];

static int test_boxes(const maskcull_frame *frame, const float to_clip[16])
{
    size_t counts[256] = {0};
    for (int k = 0; k < BOXES; k++) {
        const float x = next(128) - 64, y = next(8) - 4, z = 2 - next(128);
        const float box[6] = {x, y, z - 1, x + 1, y + 1, z};
        for (int i = 0; i < 6; i++) boxes[k][i] = box[i];
    }
    const size_t hidden = maskcull_frame_test_boxes(frame, to_clip, boxes[0], BOXES, verdicts);
    for (int k = 0; k < BOXES; k++) counts[verdicts[k]]++;
    printf("visible %u occluded %u outside %u\n", (unsigned)counts[MASKCULL_VISIBLE],
           (unsigned)counts[MASKCULL_OCCLUDED], (unsigned)counts[MASKCULL_OUTSIDE]);
    return hidden == counts[MASKCULL_OCCLUDED];
}

static int sum_picture(const maskcull_frame *frame)
{
    static uint16_t picture[WIDTH * HEIGHT];
    uint64_t sum = 0;
    if (maskcull_frame_nearness(frame, picture, WIDTH * HEIGHT, WIDTH) != MASKCULL_DONE) return 0;
    for (uint64_t k = 0; k < WIDTH * HEIGHT; k++) sum += (k + 1) * picture[k];
    printf("picture %" PRIu64 "\n", sum);
    return 1;
}

/* The least of many, in time of the processor. */
static void time_boxes(const maskcull_frame *frame, const float to_clip[16])
{
    clock_t least = CLOCKS_PER_SEC;
    for (int k = 0; k < 200; k++) {
        const clock_t before = clock();
        for (int j = 0; j < 10; j++) maskcull_frame_test_boxes(frame, to_clip, boxes[0], BOXES, verdicts);
        const clock_t taken = clock() - before;
        if (taken < least) least = taken;
    }
    printf("boxes %.1f\n", (double)least * 1e6 / CLOCKS_PER_SEC / 10);
}

int main(int argument_count, char **arguments)
{
    (void)arguments;
    const float to_clip[16] = {1, 0, 0, 0, 0, 1.75f, 0, 0, 0, 0, -1, -1, 0, 0, -0.25f, 0};
    uint32_t reason;
    maskcull_frame *frame = maskcull_frame_make(WIDTH, HEIGHT, 0.125f, NULL, &reason);
    if (frame == NULL) {
        puts(maskcull_frame_text(reason));
        return 1;
    }
    maskcull_frame_clear(frame);
    const int is_done = draw_walls(frame, to_clip) && test_boxes(frame, to_clip) && sum_picture(frame);
    if (is_done && argument_count > 1) time_boxes(frame, to_clip);
    maskcull_frame_free(frame);
    return !is_done;
}
