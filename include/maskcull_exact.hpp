// SPDX-License-Identifier: MIT OR Apache-2.0
//
// maskcull::exact_frame: frames for C++17 programs, whose answers are proved from the floats on that are passed. It is
// used as maskcull::frame is, but that nothing is prepared.
//
// What is called occluded is hidden by the exact triangles: in each pixel that a point of the object projects into, the
// ray through any point of the pixel meets a drawn triangle, not before the near distance and nearer than the object
// (docs/PICTURE.md). That is proved of the calls of maskcull.h that are made here. No proof covers this file; it only
// picks the rows of a matrix by its layout, turns the sign of y's row, and says how positions lie.
//
// A frame's pixels are cells of the screen, as many as the window has, or fewer. A reach of 8 sixteenths is all of a
// pixel: what is called occluded is hidden however many pixels and samples the window has. A reach of 1 is little more
// than its middle, and finds more: it is for a frame of the window's size without multisampling. A reach of 9 leaves a
// sixteenth for a renderer that snaps corners, and a share something for depths that it rounds.
#ifndef MASKCULL_EXACT_HPP
#define MASKCULL_EXACT_HPP

#include "maskcull.hpp"

namespace maskcull {

struct exact_options {
    maskcull_winding winding = MASKCULL_KEEPS_BOTH;  // of occluders, as they run on the screen
    matrix_layout matrices = matrix_layout::columns; // of every matrix that is passed
    bool y_is_down = false;                          // y / w is 1 at the lower edge, as in Vulkan
    std::uint32_t reach = 8;                         // 0 to 64 sixteenths of a pixel, from its middle along each axis
    std::uint32_t share = 0;                         // 0 to 2^20 parts of 2^24: by how much what hides has to be nearer
};

/// Pieces that were set up, at the head of the room, and what that needs besides, kept for the next time. Each thread
/// has its own.
struct exact_pieces {
    std::vector<maskcull_piece> room = {};
    std::size_t count = 0;
    std::vector<float> positions = {};
    std::vector<maskcull_triangle> triangles = {};
    std::vector<maskcull_scratch> scratch = {};
};

/// A screen's tiles, its size and its near distance. It can be moved and not copied; a frame that was moved from draws
/// nothing and hides nothing. Precondition: while one thread draws or clears, no other uses the frame but for bands of
/// other rows. Any number of threads may set up and test at the same time.
class exact_frame {
public:
    /// An empty frame of any width and height from 1 to 2048, for a window of any size, or nothing: `why` gets the
    /// reason. The near distance is no less than the renderer's.
    static std::optional<exact_frame> make(std::uint32_t width, std::uint32_t height, const float &near_distance,
                                           const exact_options &chosen = {}, refusal *why = nullptr) {
        const refusal found = reason(width, height, near_distance, chosen);
        if (why != nullptr) *why = found;
        if (found != refusal::none) return std::nullopt;
        exact_frame made(width, height, chosen);
        made.clear(near_distance);
        return made;
    }

    exact_frame(exact_frame &&) = default;
    exact_frame &operator=(exact_frame &&) = default;
    void clear() { maskcull_checked_clear(tiles_.data(), tiles_.size()); }

    /// The same, with another near distance from here on. False where it isn't a finite number above 0: then nothing is
    /// drawn and all is visible, up to a clearing with one that is.
    bool clear(const float &near_distance) {
        clear();
        const std::uint32_t bits = bits_at(&near_distance);
        std::memcpy(&view_.near_distance, &bits, sizeof bits);
        return is_distance(bits);
    }

    /// For maskcull_subtile and maskcull_nearness. What maskcull.h says of copies holds of these tiles too.
    const std::vector<maskcull_tile> &tiles() const { return tiles_; }

    /// The setup of these tiles: the frame, which is the upper left part, with its sizes rounded up to 8 and 4 pixels.
    const maskcull_setup &setup() const { return setup_; }

    std::uint32_t row_count() const { return (setup_.height + 7) / 8; }

    /// Draws a mesh, but for what maskcull_set_up_floats leaves out: MASKCULL_DONE, MASKCULL_NULL, MASKCULL_BAD_INDEX
    /// where it names a vertex that isn't there, or MASKCULL_BAD_SETUP where the winding is none. Without a winding the
    /// frame's is taken, in the calls below too. Memory for it is kept in the frame.
    std::uint32_t draw(const float model_to_clip[16], const mesh_view &mesh,
                       std::optional<maskcull_winding> winding = std::nullopt) {
        return draw_band(0, row_count(), model_to_clip, mesh, pieces_, winding);
    }

    /// Draws a mesh onto some rows of tiles; MASKCULL_BAD_TILES too, where there are no such rows. Threads may do so at
    /// the same time, each onto rows of its own, and each sets all triangles up.
    std::uint32_t draw_band(std::uint32_t first_row, std::uint32_t rows, const float model_to_clip[16],
                            const mesh_view &mesh, exact_pieces &kept,
                            std::optional<maskcull_winding> winding = std::nullopt) {
        if (!has_rows(first_row, rows)) return MASKCULL_BAD_TILES;
        const std::size_t all = mesh.index_count / 3;
        std::uint32_t status = fault_of(model_to_clip, mesh, 0, all);
        for (std::size_t first = 0; status == MASKCULL_DONE && first < all; first += slice) {
            kept.count = 0;
            status = add(model_to_clip, mesh, first, std::min(slice, all - first), kept, winding);
            if (status == MASKCULL_DONE) status = draw_pieces(first_row, rows, kept.room.data(), kept.count);
        }
        return status;
    }

    /// Sets up `count` triangles of a mesh from number `first` on, in place of the pieces that were there, and answers
    /// as draw. Threads may do so at the same time. Slices from even numbers on, drawn in order, make one draw's tiles.
    std::uint32_t set_up(const float model_to_clip[16], const mesh_view &mesh, std::size_t first, std::size_t count,
                         exact_pieces &made, std::optional<maskcull_winding> winding = std::nullopt) const {
        made.count = 0;
        std::uint32_t status = fault_of(model_to_clip, mesh, first, count);
        for (std::size_t done = 0; status == MASKCULL_DONE && done < count; done += slice) {
            status = add(model_to_clip, mesh, first + done, std::min(slice, count - done), made, winding);
        }
        return status;
    }

    /// Draws pieces onto some rows of tiles: MASKCULL_DONE or MASKCULL_BAD_TILES. Threads may do so at the same time,
    /// each onto rows of its own. Precondition: an exact frame of this size and near distance set the pieces up.
    std::uint32_t draw_pieces(std::uint32_t first_row, std::uint32_t rows, const maskcull_piece *pieces,
                              std::size_t piece_count) {
        if (!has_rows(first_row, rows)) return MASKCULL_BAD_TILES;
        return maskcull_checked_draw_pieces(&setup_, tiles_.data() + columns() * first_row, columns() * rows, first_row,
                                            pieces, piece_count);
    }

    /// The verdict of a box that reaches from `low` to `high` on each axis. Visible too where a number is infinite or
    /// NaN, and where a corner is before the near distance, unless all of it is beside the screen or behind the eye.
    verdict test_aabb(const float world_to_clip[16], const float low[3], const float high[3]) const {
        if (world_to_clip == nullptr || low == nullptr || high == nullptr) return verdict::visible;
        maskcull_bounds bounds;
        std::memcpy(bounds.low, low, sizeof bounds.low), std::memcpy(bounds.high, high, sizeof bounds.high);
        const maskcull_view view = view_by(world_to_clip);
        return verdict_of(maskcull_checked_test_box_floats(&setup_, tiles_.data(), tiles_.size(), &view, &bounds));
    }

    /// The verdict of a mesh, each triangle of which is tested as a box is: more exact than a box, and slower. Outside
    /// without a triangle; visible where a triangle's vertex isn't there, is infinite, NaN or before the near distance,
    /// unless that triangle is beside the screen or behind the eye. Other vertices don't count.
    verdict test_mesh(const float model_to_clip[16], const mesh_view &mesh) const {
        constexpr std::size_t lot = 64;
        const std::size_t all = mesh.index_count / 3;
        if (tiles_.empty() || fault_of(model_to_clip, mesh, 0, all) != MASKCULL_DONE) return verdict::visible;
        const maskcull_view view = view_by(model_to_clip);
        float positions[9 * lot];
        maskcull_triangle triangles[lot];
        verdict found = verdict::outside;
        for (std::size_t first = 0; first < all; first += lot) {
            const std::size_t count = std::min(lot, all - first);
            for (std::size_t k = 0; k < count; k++) {
                triangles[k] = triangle_at(mesh, first + k);
                gather(mesh, triangles[k], k, positions + 9 * k);
            }
            const verdict one = verdict_of(maskcull_checked_test_mesh_floats(
                &setup_, tiles_.data(), tiles_.size(), &view, positions, 9 * count, triangles, count));
            if (one == verdict::visible) return one;
            if (one == verdict::occluded) found = one;
        }
        return found;
    }

private:
    // How many triangles are set up at a time, an even number, so that no pair is parted; and the most pieces of one.
    static constexpr std::size_t slice = 1024, most_pieces = 7;
    static constexpr std::uint32_t sign = 0x80000000, infinity = 0x7f800000;

    exact_frame(std::uint32_t width, std::uint32_t height, const exact_options &chosen)
        : setup_{(width + 7) / 8 * 8, (height + 3) / 4 * 4, 1,
                 static_cast<std::uint32_t>(chosen.winding) + static_cast<std::uint32_t>(MASKCULL_WIDE)},
          view_{{}, 0, chosen.reach, chosen.share, 3, width, height}, up_(chosen.y_is_down ? sign : 0),
          matrices_(chosen.matrices), tiles_(maskcull_tile_count(setup_.width, setup_.height)) {}

    // A float's bits as they lie in memory. Under -ffinite-math-only a compiler takes it that a float which it has seen
    // is neither infinite nor NaN, even by its bits: it isn't to know which one lies here.
    static std::uint32_t bits_at(const float *place) {
        const void *volatile kept = place;
        std::uint32_t bits;
        std::memcpy(&bits, kept, sizeof bits);
        return bits;
    }

    static bool is_distance(std::uint32_t bits) { return bits != 0 && bits < infinity; }

    static refusal reason(std::uint32_t width, std::uint32_t height, const float &near_distance,
                          const exact_options &chosen) {
        if (width == 0 || height == 0) return refusal::no_pixels;
        if (width > 2048 || height > 2048) return refusal::too_large;
        if (static_cast<std::uint32_t>(chosen.winding) > MASKCULL_DROPS_COUNTERCLOCKWISE) return refusal::bad_winding;
        if (chosen.reach > 64) return refusal::bad_reach;
        if (chosen.share > 1u << 20) return refusal::bad_share;
        return is_distance(bits_at(&near_distance)) ? refusal::none : refusal::bad_near_distance;
    }

    static verdict verdict_of(std::uint32_t answer) {
        if (answer == MASKCULL_OCCLUDED) return verdict::occluded;
        return answer == MASKCULL_OUTSIDE ? verdict::outside : verdict::visible;
    }

    std::size_t columns() const { return (setup_.width + 31) / 32; }
    bool has_rows(std::uint32_t first_row, std::uint32_t rows) const {
        return !tiles_.empty() && first_row <= row_count() && rows <= row_count() - first_row;
    }

    // The view with the rows of x, y upwards and w of a matrix, bit by bit.
    maskcull_view view_by(const float *matrix) const {
        const std::size_t row = matrices_ == matrix_layout::rows ? 4 : 1, column = 5 - row;
        std::uint32_t all[16], rows[12];
        std::memcpy(all, matrix, sizeof all);
        for (std::size_t k = 0; k < 4; k++) {
            const std::size_t at = column * k;
            rows[k] = all[at], rows[4 + k] = all[row + at] ^ up_, rows[8 + k] = all[3 * row + at];
        }
        maskcull_view view = view_;
        std::memcpy(view.rows, rows, sizeof rows);
        return view;
    }

    static maskcull_triangle triangle_at(const mesh_view &mesh, std::size_t number) {
        const auto *first = static_cast<const unsigned char *>(mesh.indices);
        maskcull_triangle found;
        if (!mesh.is_short) {
            std::memcpy(&found, first + number * sizeof found, sizeof found);
            return found;
        }
        std::uint16_t numbers[3];
        std::memcpy(numbers, first + number * sizeof numbers, sizeof numbers);
        return {numbers[0], numbers[1], numbers[2]};
    }

    // Why some triangles of a mesh can't be taken.
    static std::uint32_t fault_of(const float *matrix, const mesh_view &mesh, std::size_t first, std::size_t count) {
        const std::size_t all = mesh.index_count / 3;
        if (matrix == nullptr || !mesh.is_there()) return MASKCULL_NULL;
        if (first > all || count > all - first) return MASKCULL_BAD_INDEX;
        std::uint32_t greatest = 0;
        for (std::size_t k = first; k < first + count; k++) {
            const maskcull_triangle t = triangle_at(mesh, k);
            greatest = std::max({greatest, t.a, t.b, t.c});
        }
        return count == 0 || greatest < mesh.vertex_count ? MASKCULL_DONE : MASKCULL_BAD_INDEX;
    }

    // As the library takes positions.
    static bool lies_in_floats(const mesh_view &mesh) {
        return reinterpret_cast<std::uintptr_t>(mesh.positions) % sizeof(float) == 0
               && mesh.stride % sizeof(float) == 0 && mesh.stride >= 3 * sizeof(float)
               && mesh.stride / sizeof(float) <= 0xffffffff;
    }

    // Copies a triangle's positions, which are then those of number 3k on.
    static void gather(const mesh_view &mesh, maskcull_triangle &t, std::size_t k, float *to) {
        const auto *first = static_cast<const unsigned char *>(mesh.positions);
        for (const std::uint32_t number : {t.a, t.b, t.c}) {
            std::memcpy(to, first + number * mesh.stride, 3 * sizeof *to), to += 3;
        }
        const auto place = static_cast<std::uint32_t>(3 * k);
        t = {place, place + 1, place + 2};
    }

    // Sets some triangles up behind the pieces that are there: over the positions from the least to the greatest number
    // that they name, or over copies of their corners, where those are fewer or positions don't lie in floats.
    std::uint32_t add(const float *matrix, const mesh_view &mesh, std::size_t first, std::size_t count,
                      exact_pieces &made, std::optional<maskcull_winding> winding) const {
        std::uint32_t least = 0xffffffff, greatest = 0;
        made.triangles.resize(count);
        for (std::size_t k = 0; k < count; k++) {
            const maskcull_triangle t = made.triangles[k] = triangle_at(mesh, first + k);
            least = std::min({least, t.a, t.b, t.c}), greatest = std::max({greatest, t.a, t.b, t.c});
        }
        maskcull_view view = view_by(matrix);
        const void *positions = static_cast<const unsigned char *>(mesh.positions) + least * mesh.stride;
        std::size_t position_count = greatest - least + std::size_t{1};
        if (lies_in_floats(mesh) && position_count <= 3 * count) {
            for (maskcull_triangle &t : made.triangles) t = {t.a - least, t.b - least, t.c - least};
            view.stride = static_cast<std::uint32_t>(mesh.stride / sizeof(float));
        } else {
            made.positions.resize(9 * count);
            for (std::size_t k = 0; k < count; k++) gather(mesh, made.triangles[k], k, made.positions.data() + 9 * k);
            positions = made.positions.data(), position_count = 3 * count;
        }
        const std::size_t room = most_pieces * count, float_count = (position_count - 1) * view.stride + 3;
        if (made.scratch.size() < position_count) made.scratch.resize(position_count);
        if (made.room.size() < made.count + room) made.room.resize(made.count + room);
        maskcull_setup by = setup_;
        if (winding) by.winding = std::min<std::uint32_t>(*winding, MASKCULL_WIDE - 1) + MASKCULL_WIDE;
        std::size_t added = 0;
        const std::uint32_t status = maskcull_checked_set_up_floats(
            &by, &view, static_cast<const float *>(positions), float_count, made.triangles.data(), count,
            made.scratch.data(), made.scratch.size(), made.room.data() + made.count, room, &added);
        made.count += added;
        return status;
    }

    maskcull_setup setup_;
    maskcull_view view_; // without the rows
    std::uint32_t up_;   // what turns the sign of y's row
    matrix_layout matrices_;
    std::vector<maskcull_tile> tiles_;
    exact_pieces pieces_;
};

} // namespace maskcull

#endif
