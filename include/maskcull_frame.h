/* SPDX-License-Identifier: MIT OR Apache-2.0
 *
 * maskcull::frame of maskcull.hpp for C, and so for each language that calls C: a matrix and a mesh of floats are
 * passed as they are, and rounded as that header says. bindings/c/maskcull_frame.cpp has the calls; no proof covers it.
 *
 *     maskcull_frame *frame = maskcull_frame_make(1280, 720, 0.1f, NULL, NULL);     // near distance 0.1
 *     if (frame == NULL) return 1;
 *     for (;;) {                                                                    // each frame
 *         maskcull_frame_clear(frame);
 *         maskcull_frame_draw(frame, wall_to_clip, positions, 12, 4, indices, 2, 6, MASKCULL_OWN_WINDING);
 *         maskcull_frame_test_boxes(frame, world_to_clip, boxes, box_count, verdicts);
 *     }
 *     maskcull_frame_free(frame);
 *
 * No call prints, exits, starts a thread, or lets an exception out. A pointer that is null where something has to be is
 * told, or a test says visible.
 *
 * libmaskcull.so has these calls beside those of maskcull.h, and needs no C++ library: cc game.c -lmaskcull
 * As a static library they are libmaskcull_frame.a, which was compiled from C++ and so needs the C++ library:
 * cc game.c -lmaskcull_frame -lmaskcull_c -lstdc++ -lm, as `pkg-config --static --libs maskcull` tells; a program that
 * is linked by a C++ compiler needs no more than the first two. bindings/c/build makes both libraries, as an archive
 * has them.
 *
 * Preconditions, which no call can check
 *   1. A pointer that isn't null points to as much as is said. Positions, matrices and boxes need no alignment.
 *   2. A frame came from maskcull_frame_make and wasn't freed since. While one thread draws, clears or frees it, no
 *      other uses it; any number of threads may test. */
#ifndef MASKCULL_FRAME_H
#define MASKCULL_FRAME_H

#include <stddef.h>
#include <stdint.h>

#include "maskcull.h"

#ifdef __cplusplus
extern "C" {
#endif

typedef struct maskcull_frame maskcull_frame;

/* How a frame is to be. Set the size, and leave 0 what is to be as usual:
 *     maskcull_frame_options chosen = {sizeof chosen};
 * A later version adds fields at the end. A shorter struct is taken as one whose missing fields are 0, and a longer one
 * is refused only where a field that isn't known isn't 0. Where a field is yes or no, it is 1 or 0. */
typedef struct maskcull_frame_options {
    uint32_t size;         /* of this struct, in bytes */
    uint32_t exact;        /* frames that are proved from the floats on: not in this version, so it has to be 0 */
    uint32_t reach;        /* of exact frames, in sixteenths of a pixel; 0 in others */
    uint32_t share;        /* of exact frames; 0 in others */
    uint32_t winding;      /* of occluders, as they run on the screen: one of maskcull_winding; usually both are kept */
    uint32_t by_rows;      /* matrices lie row by row, for column vectors; usually column by column */
    uint32_t y_is_down;    /* y / w is 1 at the lower edge, as in Vulkan; usually at the upper one */
    uint32_t narrow;       /* the narrow grade, whose nearness goes to 65535; usually the wide one */
    uint32_t orthographic; /* an orthographic view: then the near distance isn't read, but these two, else they are 0 */
    float at_near;         /* z / w at the near plane */
    float at_far;          /* and at the far one */
} maskcull_frame_options;

/* Why there is no frame. */
enum maskcull_frame_reason {
    MASKCULL_FRAME_MADE = 0,
    MASKCULL_FRAME_NO_PIXELS = 1,         /* the width or the height is 0 */
    MASKCULL_FRAME_TOO_LARGE = 2,         /* one is above 2048 */
    MASKCULL_FRAME_BAD_NEAR_DISTANCE = 3, /* it isn't a finite number above 0 */
    MASKCULL_FRAME_BAD_WINDING = 4,       /* it isn't one of maskcull_winding */
    MASKCULL_FRAME_BAD_DEPTHS = 5,        /* those of an orthographic view are nearly the same, or no numbers */
    MASKCULL_FRAME_BAD_SIZE = 6,          /* the struct's size is below 4, above 1024 or no multiple of 4 */
    MASKCULL_FRAME_BAD_FIELD = 7,         /* a field that is yes or no is neither 1 nor 0, or one isn't known */
    MASKCULL_FRAME_NO_EXACT = 8,          /* exact frames aren't in this version */
    MASKCULL_FRAME_STRAY_FIELD = 9,       /* reach or share without exact, or depths without orthographic */
    MASKCULL_FRAME_NO_MEMORY = 10
};

/* Beside the numbers of maskcull_status: out of memory. */
enum { MASKCULL_NO_MEMORY = 6 };

/* Beside those of maskcull_winding, for maskcull_frame_draw: that of the frame's options. */
enum { MASKCULL_OWN_WINDING = 3 };

/* What the library was built as: MASKCULL_VERSION_NUMBER. */
uint32_t maskcull_frame_version(void);

/* An empty frame for a window of any width and height from 1 to 2048. Without options all is as usual. NULL where they,
 * the size or the near distance aren't allowed, or out of memory; `reason`, if it isn't null, gets one of
 * maskcull_frame_reason. */
maskcull_frame *maskcull_frame_make(uint32_t width, uint32_t height, float near_distance,
                                    const maskcull_frame_options *options, uint32_t *reason);

/* A reason in words, in English. */
const char *maskcull_frame_text(uint32_t reason);

/* Nothing with NULL. */
void maskcull_frame_free(maskcull_frame *frame);

void maskcull_frame_clear(maskcull_frame *frame);

/* Draws a mesh: x, y and z of vertex k lie at `positions` + k * stride bytes; an index has 2 or 4 bytes; one or two
 * indices behind the last whole triangle are ignored. The winding is one of maskcull_winding, for this draw alone, or
 * MASKCULL_OWN_WINDING. Returns MASKCULL_DONE; or MASKCULL_NULL, MASKCULL_BAD_INDEX, MASKCULL_BAD_SETUP (indices of
 * another size, no such winding) or MASKCULL_NO_MEMORY: then nothing was drawn, and the frame is as it was. */
uint32_t maskcull_frame_draw(maskcull_frame *frame, const float model_to_clip[16],
                             const void *positions, size_t stride, size_t vertex_count,
                             const void *indices, size_t index_bytes, size_t index_count, uint32_t winding);

/* Tests boxes of six floats each, the low corner and the high one: byte k is MASKCULL_VISIBLE, MASKCULL_OCCLUDED or
 * MASKCULL_OUTSIDE. Returns how many are occluded. Where the frame, the matrix or the boxes are null all are visible,
 * and without verdicts nothing is done. */
size_t maskcull_frame_test_boxes(const maskcull_frame *frame, const float world_to_clip[16],
                                 const float *boxes, size_t box_count, uint8_t *verdicts);

/* The verdict of a mesh, each triangle from both sides. MASKCULL_VISIBLE too where a pointer is null, the indices have
 * another size than 2 or 4 bytes, or a triangle names a vertex that isn't there. */
uint32_t maskcull_frame_test_mesh(const maskcull_frame *frame, const float model_to_clip[16],
                                  const void *positions, size_t stride, size_t vertex_count,
                                  const void *indices, size_t index_bytes, size_t index_count);

/* The picture of what the window holds, as maskcull_nearness writes it: MASKCULL_DONE, MASKCULL_NULL, MASKCULL_BAD_ROOM
 * or MASKCULL_NO_MEMORY. */
uint32_t maskcull_frame_nearness(const maskcull_frame *frame, uint16_t *out, size_t out_count, size_t row_stride);

static_assert(sizeof(maskcull_frame_options) == 44 && offsetof(maskcull_frame_options, at_far) == 40,
              "maskcull_frame_options");

#ifdef __cplusplus
}
#endif

#endif
