// SPDX-License-Identifier: MIT OR Apache-2.0
//
// The calls of maskcull_frame.h over maskcull::frame. They pass on what they get, and add no arithmetic: rounding is
// maskcull.hpp's. No exception leaves them.
#include "maskcull_frame.h"

#include "maskcull.hpp"

#include <algorithm>
#include <cstring>
#include <exception>
#include <new>
#include <utility>

struct maskcull_frame {
    maskcull::frame of_floats;
    std::uint32_t width, height; // of the window
};

namespace {

using maskcull::refusal;

constexpr std::size_t most_bytes = 1024;

// Options of any version as those of this one: a reason where they can't be taken so.
std::uint32_t read(const maskcull_frame_options *given, maskcull_frame_options &taken) {
    taken = {};
    if (given == nullptr) return MASKCULL_FRAME_MADE;
    std::uint32_t size;
    std::memcpy(&size, given, sizeof size);
    if (size < sizeof size || size > most_bytes || size % 4 != 0) return MASKCULL_FRAME_BAD_SIZE;
    const auto *bytes = reinterpret_cast<const unsigned char *>(given);
    std::memcpy(&taken, bytes, std::min<std::size_t>(size, sizeof taken));
    for (std::size_t k = sizeof taken; k < size; k++) {
        if (bytes[k] != 0) return MASKCULL_FRAME_BAD_FIELD;
    }
    return MASKCULL_FRAME_MADE;
}

// Whether a float's bits are those of 0, which no setting of a compiler or processor takes for another number's.
bool is_zero(const float &number) {
    const unsigned char none[sizeof number] = {};
    return std::memcmp(&number, none, sizeof number) == 0;
}

std::uint32_t fault_of(const maskcull_frame_options &o) {
    for (const std::uint32_t field : {o.exact, o.by_rows, o.y_is_down, o.narrow, o.orthographic}) {
        if (field > 1) return MASKCULL_FRAME_BAD_FIELD;
    }
    if (o.exact != 0) return MASKCULL_FRAME_NO_EXACT;
    if (o.reach != 0 || o.share != 0) return MASKCULL_FRAME_STRAY_FIELD;
    if (o.orthographic == 0 && !(is_zero(o.at_near) && is_zero(o.at_far))) return MASKCULL_FRAME_STRAY_FIELD;
    return o.winding > MASKCULL_DROPS_COUNTERCLOCKWISE ? MASKCULL_FRAME_BAD_WINDING : MASKCULL_FRAME_MADE;
}

std::uint32_t number_of(refusal why) {
    switch (why) {
    case refusal::none: return MASKCULL_FRAME_MADE;
    case refusal::no_pixels: return MASKCULL_FRAME_NO_PIXELS;
    case refusal::too_large: return MASKCULL_FRAME_TOO_LARGE;
    case refusal::bad_near_distance: return MASKCULL_FRAME_BAD_NEAR_DISTANCE;
    case refusal::bad_winding: return MASKCULL_FRAME_BAD_WINDING;
    case refusal::bad_depths: return MASKCULL_FRAME_BAD_DEPTHS;
    case refusal::bad_grade:
    case refusal::bad_reach:
    case refusal::bad_share: break; // such a one isn't passed on
    }
    return MASKCULL_FRAME_BAD_FIELD;
}

std::uint32_t make(std::uint32_t width, std::uint32_t height, const float &near_distance,
                   const maskcull_frame_options *given, maskcull_frame *&frame) {
    maskcull_frame_options o;
    std::uint32_t reason = read(given, o);
    if (reason == MASKCULL_FRAME_MADE) reason = fault_of(o);
    if (reason != MASKCULL_FRAME_MADE) return reason;
    maskcull::options chosen;
    chosen.winding = static_cast<maskcull_winding>(o.winding);
    if (o.by_rows != 0) chosen.matrices = maskcull::matrix_layout::rows;
    chosen.y_is_down = o.y_is_down != 0;
    if (o.orthographic != 0) chosen.orthographic = maskcull::depth_range{o.at_near, o.at_far};
    refusal why = refusal::none;
    try {
        auto made = maskcull::frame::make(width, height, near_distance, chosen,
                                          o.narrow != 0 ? MASKCULL_NARROW : MASKCULL_WIDE, &why);
        if (!made) return number_of(why);
        frame = new maskcull_frame{std::move(*made), width, height};
    } catch (const std::exception &) {
        return MASKCULL_FRAME_NO_MEMORY;
    }
    return MASKCULL_FRAME_MADE;
}

bool is_index_size(std::size_t bytes) { return bytes == 2 || bytes == 4; }

maskcull::mesh_view mesh_of(const void *positions, std::size_t stride, std::size_t vertices, const void *indices,
                            std::size_t bytes, std::size_t count) {
    if (bytes == 2) return {positions, stride, vertices, static_cast<const std::uint16_t *>(indices), count};
    return {positions, stride, vertices, static_cast<const std::uint32_t *>(indices), count};
}

std::uint8_t number_of(maskcull::verdict found) {
    if (found == maskcull::verdict::occluded) return MASKCULL_OCCLUDED;
    return found == maskcull::verdict::outside ? MASKCULL_OUTSIDE : MASKCULL_VISIBLE;
}

// Where the tiles' picture is larger than the window's: the window is the upper left part.
std::uint32_t part_of_picture(const maskcull_frame &frame, std::uint16_t *out, std::size_t row_stride) {
    const maskcull_setup &setup = frame.of_floats.setup();
    const std::vector<maskcull_tile> &tiles = frame.of_floats.tiles();
    std::vector<std::uint16_t> whole(std::size_t{setup.width} * setup.height);
    const std::uint32_t status =
        maskcull_checked_nearness(&setup, tiles.data(), tiles.size(), whole.data(), whole.size(), setup.width);
    for (std::size_t y = 0; status == MASKCULL_DONE && y < frame.height; y++) {
        std::copy_n(whole.data() + y * setup.width, frame.width, out + y * row_stride);
    }
    return status;
}

} // namespace

extern "C" {

uint32_t maskcull_frame_version(void) { return MASKCULL_VERSION_NUMBER; }

maskcull_frame *maskcull_frame_make(uint32_t width, uint32_t height, float near_distance,
                                    const maskcull_frame_options *options, uint32_t *reason) {
    maskcull_frame *made = nullptr;
    const std::uint32_t found = make(width, height, near_distance, options, made);
    if (reason != nullptr) *reason = found;
    return made;
}

const char *maskcull_frame_text(uint32_t reason) {
    switch (reason) {
    case MASKCULL_FRAME_MADE: return maskcull::text_of(refusal::none);
    case MASKCULL_FRAME_NO_PIXELS: return maskcull::text_of(refusal::no_pixels);
    case MASKCULL_FRAME_TOO_LARGE: return maskcull::text_of(refusal::too_large);
    case MASKCULL_FRAME_BAD_NEAR_DISTANCE: return maskcull::text_of(refusal::bad_near_distance);
    case MASKCULL_FRAME_BAD_WINDING: return maskcull::text_of(refusal::bad_winding);
    case MASKCULL_FRAME_BAD_DEPTHS: return maskcull::text_of(refusal::bad_depths);
    case MASKCULL_FRAME_BAD_SIZE: return "the size of the options isn't one that a version has";
    case MASKCULL_FRAME_BAD_FIELD: return "an option is neither 0 nor 1, or isn't known in this version";
    case MASKCULL_FRAME_NO_EXACT: return "exact frames aren't in this version";
    case MASKCULL_FRAME_STRAY_FIELD: return "reach and share are for exact frames, depths for orthographic ones";
    case MASKCULL_FRAME_NO_MEMORY: return "out of memory";
    default: return "no reason of this version";
    }
}

void maskcull_frame_free(maskcull_frame *frame) { delete frame; }

void maskcull_frame_clear(maskcull_frame *frame) {
    if (frame != nullptr) frame->of_floats.clear();
}

uint32_t maskcull_frame_draw(maskcull_frame *frame, const float model_to_clip[16],
                             const void *positions, size_t stride, size_t vertex_count,
                             const void *indices, size_t index_bytes, size_t index_count, uint32_t winding) {
    if (frame == nullptr) return MASKCULL_NULL;
    if (!is_index_size(index_bytes) || winding > MASKCULL_OWN_WINDING) return MASKCULL_BAD_SETUP;
    std::optional<maskcull_winding> drawn;
    if (winding != MASKCULL_OWN_WINDING) drawn = static_cast<maskcull_winding>(winding);
    const maskcull::mesh_view mesh = mesh_of(positions, stride, vertex_count, indices, index_bytes, index_count);
    try {
        return frame->of_floats.draw(model_to_clip, mesh, drawn);
    } catch (const std::exception &) { // bad_alloc, or length_error
        return MASKCULL_NO_MEMORY;
    }
}

size_t maskcull_frame_test_boxes(const maskcull_frame *frame, const float world_to_clip[16],
                                 const float *boxes, size_t box_count, uint8_t *verdicts) {
    if (verdicts == nullptr) return 0;
    if (frame == nullptr || world_to_clip == nullptr || boxes == nullptr) {
        std::fill_n(verdicts, box_count, std::uint8_t{MASKCULL_VISIBLE});
        return 0;
    }
    std::size_t hidden = 0;
    for (std::size_t k = 0; k < box_count; k++, boxes += 6) {
        verdicts[k] = number_of(frame->of_floats.test_aabb(world_to_clip, boxes, boxes + 3));
        hidden += verdicts[k] == MASKCULL_OCCLUDED;
    }
    return hidden;
}

uint32_t maskcull_frame_test_mesh(const maskcull_frame *frame, const float model_to_clip[16],
                                  const void *positions, size_t stride, size_t vertex_count,
                                  const void *indices, size_t index_bytes, size_t index_count) {
    if (frame == nullptr || !is_index_size(index_bytes)) return MASKCULL_VISIBLE;
    const maskcull::mesh_view mesh = mesh_of(positions, stride, vertex_count, indices, index_bytes, index_count);
    try {
        return number_of(frame->of_floats.test_mesh(model_to_clip, mesh));
    } catch (const std::exception &) {
        return MASKCULL_VISIBLE;
    }
}

uint32_t maskcull_frame_nearness(const maskcull_frame *frame, uint16_t *out, size_t out_count, size_t row_stride) {
    if (frame == nullptr || out == nullptr) return MASKCULL_NULL;
    const maskcull_setup &setup = frame->of_floats.setup();
    const std::vector<maskcull_tile> &tiles = frame->of_floats.tiles();
    if (setup.width == frame->width && setup.height == frame->height) {
        return maskcull_checked_nearness(&setup, tiles.data(), tiles.size(), out, out_count, row_stride);
    }
    if (row_stride < frame->width || out_count < frame->width
        || (out_count - frame->width) / row_stride < frame->height - 1) {
        return MASKCULL_BAD_ROOM;
    }
    try {
        return part_of_picture(*frame, out, row_stride);
    } catch (const std::exception &) {
        return MASKCULL_NO_MEMORY;
    }
}

} // extern "C"
