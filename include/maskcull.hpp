// SPDX-License-Identifier: MIT OR Apache-2.0
//
// maskcull for C++17 programs that compute in floats: a matrix and a mesh, or clip coordinates, are passed as they are.
//
// The library takes whole numbers. This file rounds to them so that an occluder is never nearer and an object never
// farther than it is, and it tests an object as a little wider than it is: rounding never hides one. No proof covers
// this file; maskcull.h says what its calls promise.
//
//     std::optional<maskcull::frame> frame = maskcull::frame::make(1280, 720, 0.1f);  // near distance 0.1
//     const maskcull::mesh_view wall(vertices, sizeof vertices[0], vertex_count, indices, index_count);
//     frame->clear();                                                                // each frame
//     frame->draw(wall_to_clip, wall);
//     if (frame->test_aabb(world_to_clip, low, high) == maskcull::verdict::visible) draw_the_house();
//
// A matrix takes (x, y, z, 1) to clip space, as projection times view times model does. `options` says how it lies in
// memory and whether y runs downwards, as in Vulkan. The view is one in perspective, with w the distance along it: x /
// w from -1 to 1 to the right, y / w from -1 to 1 upwards. z in clip space isn't read: reversed z, any range of depth
// and a far plane at infinity need no care. Or it is an orthographic one, by `options`: then w is the same everywhere,
// and z is read.
//
// Occluders reach from 8/7 of a near distance to 16384 near distances, 1.6 km for 10 cm; what of one lies farther is
// cut off, and so is what is seen too much from its edge to say how far it is. In an orthographic view they reach from
// the near plane to the far one, and sixteen times as far to the sides as the screen.
//
// What is called occluded is hidden by the pieces that are drawn, whose corners are snapped to sixteenths of a pixel. A
// renderer's edges lie elsewhere, by 1/32 of a pixel along each axis, and by up to a pixel at the near plane, where
// rounding moves corners too. So what a renderer shows only through a slit between two occluders, or between one and
// the screen's edge, may be called hidden where the slit is as thin: as between meshes whose common corners differ a
// little. Where pixels have more samples than one it may be so too where the slit is narrower than a pixel, or three at
// the near plane, since a pixel is tested at its middle.
//
// All this holds too in a program that is compiled with -ffast-math, -ffinite-math-only or -Ofast: what is infinite or
// no number is found by its bits as they lie in memory, and what a compiler may round otherwise is within the slack of
// each bound. checks/c-library tests it with g++ and clang++. It is meant to hold for MSVC with /fp:fast, untested.
//
// maskcull_exact.hpp, which is included here, has maskcull::exact_frame: nothing is rounded there, and what it calls
// occluded is proved to be hidden by the triangles that were passed, slits included.
#ifndef MASKCULL_HPP
#define MASKCULL_HPP

#include "maskcull.h"

#include <algorithm>
#include <cmath>
#include <cstddef>
#include <cstdint>
#include <cstdio>
#include <cstring>
#include <initializer_list>
#include <limits>
#include <mutex>
#include <optional>
#include <vector>

namespace maskcull {

/// A point of clip space as a vertex shader returns it, without z. In an orthographic view, where w is 1, z stands in
/// its place.
struct clip_point {
    float x, y, w;
};

/// What a test says of an object. Visible: not hidden, or not known to be. Outside: nothing of it is on the screen,
/// since it lies beside it or behind the eye.
enum class verdict { visible, occluded, outside };

/// How the 16 numbers of a matrix lie in memory, for matrices that stand to the left of a column vector: column by
/// column, as in OpenGL, Vulkan and glm, or row by row. A matrix that stands to the right of a row vector, as in
/// DirectXMath, is the transposed one: where its rows follow each other, these are columns here.
enum class matrix_layout { columns, rows };

/// z / w in clip space at the near plane and at the far one: -1 and 1 in OpenGL, 0 and 1 in Vulkan and Direct3D, and 1
/// and 0 where z is reversed.
struct depth_range {
    float at_near = -1, at_far = 1;
};

struct options {
    maskcull_winding winding = MASKCULL_KEEPS_BOTH;         // of occluders, as they run on the screen
    matrix_layout matrices = matrix_layout::columns;        // of every matrix that is passed
    bool y_is_down = false;                                 // y / w is 1 at the lower edge, as in Vulkan
    std::optional<depth_range> orthographic = std::nullopt; // an orthographic view, and how z runs in it
};

/// Why `frame::make` or `exact_frame::make` made no frame.
enum class refusal {
    none, no_pixels, too_large, bad_near_distance, bad_winding, bad_grade, bad_depths, bad_reach, bad_share
};

/// A reason in words.
inline const char *text_of(refusal why) {
    switch (why) {
    case refusal::none: return "a frame was made";
    case refusal::no_pixels: return "the width or the height is 0";
    case refusal::too_large: return "the width or the height is above 2048: make a frame of half the window's size";
    case refusal::bad_near_distance: return "the near distance isn't a finite number above 0";
    case refusal::bad_winding: return "the winding isn't one of maskcull_winding";
    case refusal::bad_grade: return "the grade is neither MASKCULL_NARROW nor MASKCULL_WIDE";
    case refusal::bad_depths: return "the depths of the near and the far plane aren't finite, or are (nearly) the same";
    case refusal::bad_reach: return "the reach is above 64 sixteenths of a pixel";
    case refusal::bad_share: return "the share is above 1048576 parts of 2^24";
    }
    return "no reason of this version";
}

/// A mesh where it lies: its vertices' positions, three floats each and `stride` bytes from one to the next, and the
/// numbers of three vertices for each triangle, from 0. Nothing is copied; any alignment will do.
struct mesh_view {
    const void *positions;
    std::size_t stride;
    std::size_t vertex_count;
    const void *indices;
    std::size_t index_count; // one or two behind the last whole triangle are ignored
    bool is_short;           // indices of 2 bytes, else of 4

    mesh_view(const void *first_position, std::size_t bytes, std::size_t vertices, const std::uint16_t *numbers,
              std::size_t number_count)
        : positions(first_position), stride(bytes), vertex_count(vertices), indices(numbers), index_count(number_count),
          is_short(true) {}

    mesh_view(const void *first_position, std::size_t bytes, std::size_t vertices, const std::uint32_t *numbers,
              std::size_t number_count)
        : positions(first_position), stride(bytes), vertex_count(vertices), indices(numbers), index_count(number_count),
          is_short(false) {}

    /// Whether there are pointers for what is counted.
    bool is_there() const {
        return maskcull_is_there(positions, vertex_count) && maskcull_is_there(indices, index_count);
    }
};

namespace detail {

// Points in whole numbers' units, and by how much each has to be moved away from the eye for the triangles that it is a
// corner of; or that it can't be drawn as it is.
struct corners {
    std::vector<double> x = {}, y = {}, w = {};
    std::vector<float> factor = {};

    void resize(std::size_t count) {
        x.resize(count), y.resize(count), w.resize(count), factor.resize(count);
    }
};

} // namespace detail

/// Occluders in whole numbers, to be drawn onto frames of the size and the near distance that they were prepared for.
struct occluders {
    std::vector<maskcull_vertex> vertices;
    std::vector<maskcull_triangle> triangles;
    // room for preparing, kept for the next time
    detail::corners corners = {};
    std::vector<maskcull_triangle> unclear = {};
};

/// What a frame drew and tested from one clearing to the next, in the whole numbers that were passed to the library, as
/// a scene that `maskcull cull` reads: so that a hole in a picture, or a slow frame, can be sent to others. Object k of
/// the scene is the k-th call of the library that tested something, a rectangle at a distance; `answers` has what each
/// returned. A box takes one call, a mesh several; what is known without a call, as of a box beside the screen or
/// behind the eye, isn't recorded.
///
/// The program draws all before it tests, so its verdicts are these answers where nothing was drawn after a test. What
/// was tested farther than the guard is written as at the guard, so it may be visible there. A frame whose size was
/// rounded up is a scene of that size.
class recorder {
public:
    /// What each test returned: MASKCULL_VISIBLE or MASKCULL_OCCLUDED.
    const std::vector<std::uint32_t> &answers() const { return answers_; }

    /// The bytes of the scene; none where nothing was recorded, or more than a scene can have: 262,144 vertices, 65,536
    /// triangles, as many tests, and 4,096 batches. A batch is a run of draws with one winding.
    std::vector<unsigned char> scene() const {
        std::lock_guard<std::mutex> lock(busy_);
        if (setup_.width == 0 || vertices_.size() > 262144 || triangles_.size() > 65536 || areas_.size() > 65536
            || batches_.size() > 4096) {
            return {};
        }
        std::vector<unsigned char> bytes = {'M', 'S', 'O', 'C'};
        for (const std::uint32_t number : {std::uint32_t{2}, setup_.width, setup_.height, setup_.near_w}) {
            put(bytes, number, 2);
        }
        bytes.push_back(0);
        put(bytes, setup_.winding / MASKCULL_WIDE, 1);
        put(bytes, 1, 2);
        for (const std::size_t count : {vertices_.size(), triangles_.size(), std::size_t{0}, areas_.size()}) {
            put(bytes, static_cast<std::uint32_t>(count), 4);
        }
        put(bytes, static_cast<std::uint32_t>(batches_.size()), 4);
        for (const maskcull_vertex &v : vertices_) put_all(bytes, {v.x, v.y, v.w});
        for (const maskcull_triangle &t : triangles_) {
            for (const std::uint32_t number : {t.a, t.b, t.c}) put(bytes, number, 4);
        }
        for (const batch &b : batches_) {
            put(bytes, b.triangles, 4);
            put(bytes, b.winding, 1);
        }
        for (const question &q : areas_) {
            bytes.push_back(0); // a rectangle
            put_all(bytes, {q.area.x0, q.area.y0, q.area.x1, q.area.y1, q.w, 0});
        }
        put_all(bytes, {65536, 0, 0, 0, 0, 65536, 0, 0, 0, 0, 65536, 0}); // a camera that leaves all where it is
        return bytes;
    }

    /// Writes the scene to a file; false where there is none or it can't be written.
    bool save(const char *path) const {
        const std::vector<unsigned char> bytes = scene();
        std::FILE *file = bytes.empty() ? nullptr : std::fopen(path, "wb");
        if (file == nullptr) return false;
        const bool is_written = std::fwrite(bytes.data(), 1, bytes.size(), file) == bytes.size();
        return std::fclose(file) == 0 && is_written;
    }

private:
    friend class frame;

    static constexpr std::int32_t guard = 1 << 24;

    struct question {
        maskcull_area area;
        std::int32_t w;
    };

    struct batch {
        std::uint32_t triangles, winding;
    };

    static void put(std::vector<unsigned char> &bytes, std::uint32_t number, int size) {
        for (int k = 0; k < size; k++) bytes.push_back(static_cast<unsigned char>(number >> (8 * k)));
    }

    static void put_all(std::vector<unsigned char> &bytes, std::initializer_list<std::int32_t> numbers) {
        for (const std::int32_t number : numbers) put(bytes, static_cast<std::uint32_t>(number), 4);
    }

    void begin(const maskcull_setup &setup) {
        std::lock_guard<std::mutex> lock(busy_);
        setup_ = setup;
        vertices_.clear(), triangles_.clear(), areas_.clear(), answers_.clear();
        batches_.assign(1, {0, setup.winding % MASKCULL_WIDE});
    }

    static bool is_within(const maskcull_vertex &v) {
        return std::max({v.x, v.y, v.w}) <= guard && std::min({v.x, v.y, v.w}) >= -guard;
    }

    void add(const maskcull_setup &by, const occluders &drawn) { add(by, drawn, 0, drawn.triangles.size()); }

    void add(const maskcull_setup &by, const occluders &drawn, std::size_t first, std::size_t count) {
        std::lock_guard<std::mutex> lock(busy_);
        if (count == 0 || batches_.empty()) return;
        const std::uint32_t winding = by.winding % MASKCULL_WIDE;
        if (batches_.back().triangles == 0) batches_.back().winding = winding;
        if (batches_.back().winding != winding) batches_.push_back({0, winding});
        const std::uint32_t none = 0xffffffff;
        std::vector<std::uint32_t> places(drawn.vertices.size(), none);
        for (std::size_t j = first; j < first + count; j++) {
            const maskcull_triangle &t = drawn.triangles[j];
            const std::uint32_t numbers[3] = {t.a, t.b, t.c};
            bool is_drawn = true;
            for (const std::uint32_t k : numbers) is_drawn = is_drawn && is_within(drawn.vertices[k]);
            if (!is_drawn) continue;
            for (const std::uint32_t k : numbers) {
                if (places[k] != none) continue;
                places[k] = static_cast<std::uint32_t>(vertices_.size());
                vertices_.push_back(drawn.vertices[k]);
            }
            triangles_.push_back({places[t.a], places[t.b], places[t.c]});
            batches_.back().triangles++;
        }
    }

    void add(const maskcull_area &area, std::int32_t w, std::uint32_t answer) {
        std::lock_guard<std::mutex> lock(busy_);
        const auto right = static_cast<std::int32_t>(setup_.width), bottom = static_cast<std::int32_t>(setup_.height);
        const auto cut = [](std::int32_t number, std::int32_t most) { return std::min(std::max(number, 0), most); };
        areas_.push_back({{cut(area.x0, right), cut(area.y0, bottom), cut(area.x1, right), cut(area.y1, bottom)},
                          std::min(w, guard)});
        answers_.push_back(answer);
    }

    mutable std::mutex busy_;
    maskcull_setup setup_{0, 0, 0, 0};
    std::vector<maskcull_vertex> vertices_;
    std::vector<maskcull_triangle> triangles_;
    std::vector<batch> batches_;
    std::vector<question> areas_;
    std::vector<std::uint32_t> answers_;
};

/// A screen's tiles, its size and its near distance. It can be moved and not copied; a frame that was moved from draws
/// nothing and hides nothing. Precondition: while one thread draws or clears, no other uses the frame but for bands of
/// other rows. Any number of threads may prepare and test at the same time.
class frame {
public:
    /// An empty frame for a window of any width and height from 1 to 2048; nothing where they are others, or the near
    /// distance isn't a finite number above 0: `why` gets the reason. A larger window takes a frame of half its width
    /// and height: what shows only through a slit below two of its pixels may then be called hidden.
    static std::optional<frame> make(std::uint32_t width, std::uint32_t height, const float &near_distance,
                                     maskcull_winding winding = MASKCULL_KEEPS_BOTH,
                                     maskcull_grade grade = MASKCULL_WIDE, refusal *why = nullptr) {
        options chosen;
        chosen.winding = winding;
        return make(width, height, near_distance, chosen, grade, why);
    }

    /// The narrow grade is for programs whose answers, or whose numbers of tiles(), are to stay what they were. Of an
    /// orthographic view the near distance isn't read, but its depths, which are finite and differ by a thousandth of
    /// the greater one or more.
    static std::optional<frame> make(std::uint32_t width, std::uint32_t height, const float &near_distance,
                                     const options &chosen, maskcull_grade grade = MASKCULL_WIDE,
                                     refusal *why = nullptr) {
        viewing view;
        const refusal found = view_of(width, height, near_distance, chosen, grade, view);
        if (why != nullptr) *why = found;
        if (found != refusal::none) return std::nullopt;
        const auto drawn = static_cast<std::uint32_t>(chosen.winding) + static_cast<std::uint32_t>(grade);
        const maskcull_setup setup{(width + 7) / 8 * 8, (height + 3) / 4 * 4, finest, drawn};
        return frame(setup, view, chosen, maskcull_tile_count(setup.width, setup.height));
    }

    frame(frame &&) = default;
    frame &operator=(frame &&) = default;
    frame(const frame &) = delete;
    frame &operator=(const frame &) = delete;

    void clear() {
        maskcull_checked_clear(tiles_.data(), tiles_.size());
        if (recorder_ != nullptr) recorder_->begin(setup_);
    }

    /// The same, with another near distance from here on, of what is prepared, drawn and tested. False where it isn't a
    /// finite number above 0: then nothing is drawn and all is visible, up to a clearing with one that is. It asks for
    /// no memory. An orthographic view has none: then it is ignored.
    bool clear(const float &near_distance) {
        clear();
        if (is_flat_) return true;
        double distance;
        const bool is_one = load(hidden_from_compiler(&near_distance), distance) && distance > 0;
        scale_ = is_one ? finest / (beyond_near * distance) : 0;
        up_scale_ = is_down_ ? -scale_ : scale_;
        return is_one;
    }

    /// From the next clearing on all that is drawn and tested is recorded too; nullptr ends it. Precondition: the
    /// recorder lives as long as the frame writes to it.
    void record_to(recorder *where) { recorder_ = where; }

    /// For maskcull_subtile and maskcull_nearness. What maskcull.h says of copies holds of these tiles too.
    const std::vector<maskcull_tile> &tiles() const { return tiles_; }

    /// The setup of these tiles: its width is a multiple of 8 and its height one of 4, the window's or the next ones.
    /// The window is the upper left part.
    const maskcull_setup &setup() const { return setup_; }

    std::uint32_t row_count() const { return (setup_.height + 7) / 8; }

    /// Rounds occluders. A triangle with a point that is infinite, NaN or farther than some 70 million near distances
    /// is dropped; of one that reaches farther than occluders can, or is seen too much from its edge to say how far it
    /// is, that part is cut off. One that names a point that isn't there stays: then nothing is drawn.
    occluders prepare(const clip_point *points, std::size_t point_count, const maskcull_triangle *triangles,
                      std::size_t triangle_count) const {
        occluders made;
        prepare_into(made, points, point_count, triangles, triangle_count);
        return made;
    }

    /// The same in place of what the occluders were. Their memory is used again, so a frame like the last one allocates
    /// nothing.
    void prepare_into(occluders &made, const clip_point *points, std::size_t point_count,
                      const maskcull_triangle *triangles, std::size_t triangle_count) const {
        prepare_behind({0, 0}, made, points, point_count, triangles, triangle_count);
    }

    void prepare_into(occluders &made, const float model_to_clip[16], const mesh_view &mesh) const {
        prepare_behind({0, 0}, made, model_to_clip, mesh);
    }

    /// The same behind what the occluders have already, so that many meshes are drawn by one call.
    void prepare_more_into(occluders &made, const clip_point *points, std::size_t point_count,
                           const maskcull_triangle *triangles, std::size_t triangle_count) const {
        prepare_behind(place_of(made), made, points, point_count, triangles, triangle_count);
    }

    void prepare_more_into(occluders &made, const float model_to_clip[16], const mesh_view &mesh) const {
        prepare_behind(place_of(made), made, model_to_clip, mesh);
    }

    /// Draws prepared occluders onto all tiles: MASKCULL_DONE, or why nothing was drawn. Without a winding the frame's
    /// is taken, in the calls below too.
    std::uint32_t draw(const occluders &drawn, std::optional<maskcull_winding> winding = std::nullopt) {
        const maskcull_setup by = setup_with(winding);
        const std::uint32_t status = maskcull_checked_draw(
            &by, tiles_.data(), tiles_.size(), drawn.vertices.data(), drawn.vertices.size(), drawn.triangles.data(),
            drawn.triangles.size());
        if (recorder_ != nullptr && status == MASKCULL_DONE) recorder_->add(by, drawn);
        return status;
    }

    /// Draws a mesh: MASKCULL_DONE, MASKCULL_NULL, or MASKCULL_BAD_INDEX where it names a vertex that isn't there.
    /// Where an element of the matrix is infinite or NaN nothing is drawn. Memory for it is kept in the frame.
    std::uint32_t draw(const float model_to_clip[16], const mesh_view &mesh,
                       std::optional<maskcull_winding> winding = std::nullopt) {
        if (model_to_clip == nullptr || !mesh.is_there()) return MASKCULL_NULL;
        prepare_into(room_, model_to_clip, mesh);
        return draw(room_, winding);
    }

    /// Draws prepared occluders onto some rows of tiles. Threads may do so at the same time, each onto rows of its own.
    /// Each of them sets all triangles up; with many triangles it is set_up and draw_pieces that share this too.
    std::uint32_t draw_band(std::uint32_t first_row, std::uint32_t rows, const occluders &drawn,
                            std::optional<maskcull_winding> winding = std::nullopt) {
        if (!has_rows(first_row, rows)) return MASKCULL_BAD_TILES;
        const maskcull_setup by = setup_with(winding);
        const std::uint32_t status = maskcull_checked_draw_band(
            &by, tiles_.data() + columns() * first_row, columns() * rows, first_row, drawn.vertices.data(),
            drawn.vertices.size(), drawn.triangles.data(), drawn.triangles.size());
        // all bands draw the same: it is recorded once
        if (recorder_ != nullptr && status == MASKCULL_DONE && first_row == 0 && rows > 0) recorder_->add(by, drawn);
        return status;
    }

    /// Sets some triangles of prepared occluders up, `count` of them from number `first` on, as maskcull_set_up does:
    /// MASKCULL_DONE, MASKCULL_BAD_ROOM without room for two pieces a triangle, or MASKCULL_BAD_INDEX. Threads may do
    /// so at the same time, each into room of its own. A recorder takes triangles in the order in which they are set
    /// up.
    std::uint32_t set_up(const occluders &drawn, std::size_t first, std::size_t count, maskcull_piece *pieces,
                         std::size_t room, std::size_t &piece_count,
                         std::optional<maskcull_winding> winding = std::nullopt) const {
        if (first > drawn.triangles.size() || count > drawn.triangles.size() - first) return MASKCULL_BAD_INDEX;
        const maskcull_setup by = setup_with(winding);
        const std::uint32_t status = maskcull_checked_set_up(
            &by, drawn.vertices.data(), drawn.vertices.size(), drawn.triangles.data() + first, count, pieces, room,
            &piece_count);
        if (recorder_ != nullptr && status == MASKCULL_DONE) recorder_->add(by, drawn, first, count);
        return status;
    }

    /// Draws pieces onto some rows of tiles: MASKCULL_DONE, or MASKCULL_BAD_TILES where there are no such rows. Threads
    /// may do so at the same time, each onto rows of its own. Precondition: the pieces were set up by a frame of this
    /// size and near distance.
    std::uint32_t draw_pieces(std::uint32_t first_row, std::uint32_t rows, const maskcull_piece *pieces,
                              std::size_t piece_count) {
        if (!has_rows(first_row, rows)) return MASKCULL_BAD_TILES;
        return maskcull_checked_draw_pieces(&setup_, tiles_.data() + columns() * first_row, columns() * rows, first_row,
                                            pieces, piece_count);
    }

    /// Whether all within some points is hidden, as within the eight corners of a box. False also where it isn't on the
    /// screen, and where a point is infinite, NaN or before 8/7 of the near distance. It may be farther than occluders
    /// can be. In an orthographic view what is before the near plane is taken to be at it, and is visible.
    bool is_hidden(const clip_point *points, std::size_t count) const {
        if (tiles_.empty() || count == 0) return false;
        if (is_flat_) return are_flat_hidden(points, count);
        const unsigned char *at = hidden_from_compiler(points);
        extent e;
        for (std::size_t k = 0; k < count; k++, at += sizeof(clip_point)) {
            double3 v;
            if (!load(at, v) || !(v.w * scale_ >= finest)) return false;
            const double part = 1 / (v.w * scale_), x = v.x * scale_ * part, y = v.y * up_scale_ * part;
            e.left = std::min(e.left, x), e.right = std::max(e.right, x);
            e.low = std::min(e.low, y), e.high = std::max(e.high, y);
            e.nearest = std::min(e.nearest, v.w * scale_);
        }
        return verdict_of(e) == verdict::occluded;
    }

    /// The verdict of a box that reaches from `low` to `high` on each axis. Visible too where a number is infinite or
    /// NaN, and where a corner is before 8/7 of the near distance, unless all of the box is beside the screen or behind
    /// the eye.
    verdict test_aabb(const float world_to_clip[16], const float low[3], const float high[3]) const {
        hull<8> h;
        if (tiles_.empty() || world_to_clip == nullptr) return verdict::visible;
        if (is_flat_ || !set_plain_corners(h, world_to_clip, low, high)) {
            if (!set_corners(h, world_to_clip, low, high)) return verdict::visible;
        }
        return verdict_of(h);
    }

    /// The verdict of a mesh, each triangle of which is tested as the rectangle around it: more exact than a box, and
    /// slower. Outside without a triangle; visible where a triangle's vertex isn't there, is infinite, NaN or before
    /// 8/7 of the near distance, unless that triangle is beside the screen or behind the eye. Other vertices don't
    /// count.
    verdict test_mesh(const float model_to_clip[16], const mesh_view &mesh) const {
        matrix_rows r;
        if (tiles_.empty() || !mesh.is_there() || !read(model_to_clip, r)) return verdict::visible;
        if (mesh.index_count < 3) return verdict::outside;
        const verdict all = mesh.vertex_count <= mesh.index_count ? all_at_once(r, mesh) : verdict::visible;
        if (all != verdict::visible) return all;
        return mesh.is_short ? one_by_one(r, mesh, index_source<std::uint16_t>{mesh.indices})
                             : one_by_one(r, mesh, index_source<std::uint32_t>{mesh.indices});
    }

private:
    // The library's near plane stands a little beyond the near distance. What is drawn of a triangle is up to 1/15
    // further from the eye than the triangle, and rounding adds less than 1/16: so no part is drawn of what a renderer,
    // which cuts at the near distance, leaves out.
    static constexpr double beyond_near = 8.0 / 7;
    // The greatest near distance there is, so the finest whole numbers: a unit is 1/1024 of the library's.
    static constexpr std::uint32_t finest = 1024;
    // Past the guard, and well within 32 bits.
    static constexpr double most = 1e9;
    static constexpr double guard = 16384.0 * finest;
    // An occluder is cut here: moved away from the eye by up to 1/15 and rounded, it is still within the guard.
    static constexpr double farthest = guard * 15 / 16 - 16;
    // It is cut here too where it is cut at all: at the near distance itself, before which a renderer shows nothing.
    static constexpr double cut_near = finest / beyond_near;
    // Products and sums of doubles up to here are known to 1/4096 of a unit. A point beyond is lost.
    static constexpr double known = 0x1p36;
    // In place of a factor: the point has to be cut off, or isn't known. Factors are less than 1.1.
    static constexpr float beyond = 2, lost = 3;
    // How many points or triangles are taken at a time. So compilers make vectors of the loops, g++ with -O2 too, which
    // does so only where the number of turns is a constant and nothing in them branches.
    static constexpr std::size_t lanes = 16;
    // As much as a triangle may have to be moved away from the eye. What is seen more from its edge is cut off.
    static constexpr double steepest = 1.0 / 16;

    // An orthographic view: a point at x, y and at a depth from 0 at the near plane to 1 at the far one becomes
    // (x w, y w, w) with w = flat_near / (1 - flat_part depth), in units. So it keeps its place on the screen, planes
    // stay planes, and what is farther has a greater w, up to sixteen times flat_near; with four times tiles would
    // hide less. Rounding moves a corner by less than a sixtieth of a pixel, and a step of nearness is a 245,000th of
    // the depths.
    static constexpr double flat_near = 64.0 * finest, flat_part = 15.0 / 16;
    // Sums of coordinates and depths up to here are known to 2^-34, and so well enough. A point beyond is lost.
    static constexpr double known_flat = 0x1p16;
    // In place of a factor: the point is farther than the far plane, and has its depth in place of w.
    static constexpr float past_far_plane = 2.5f;

    // Of a window and its view: what takes numbers of clip space to units.
    struct viewing {
        double width, height;
        // in perspective
        double scale = 1;
        // z * depth_scale + depth_start is a depth; depth_terms is what the terms of it come to without z's own
        double depth_scale = 0, depth_start = 0, depth_terms = 0;
    };

    static refusal view_of(std::uint32_t width, std::uint32_t height, const float &near_distance,
                           const options &chosen, maskcull_grade grade, viewing &view) {
        if (width == 0 || height == 0) return refusal::no_pixels;
        if (width > 2048 || height > 2048) return refusal::too_large;
        if (static_cast<std::uint32_t>(chosen.winding) > MASKCULL_DROPS_COUNTERCLOCKWISE) return refusal::bad_winding;
        if (grade != MASKCULL_NARROW && grade != MASKCULL_WIDE) return refusal::bad_grade;
        view.width = width, view.height = height;
        if (!chosen.orthographic) {
            double distance;
            if (!load(hidden_from_compiler(&near_distance), distance) || !(distance > 0)) {
                return refusal::bad_near_distance;
            }
            view.scale = finest / (beyond_near * distance);
            return refusal::none;
        }
        double at_near, at_far;
        const bool is_near_known = load(hidden_from_compiler(&chosen.orthographic->at_near), at_near);
        const bool is_far_known = load(hidden_from_compiler(&chosen.orthographic->at_far), at_far);
        if (!is_near_known || !is_far_known) return refusal::bad_depths;
        const double way = at_far - at_near, most_depth = std::max(std::fabs(at_near), std::fabs(at_far));
        if (!(std::fabs(way) * 1000 >= most_depth) || most_depth == 0) return refusal::bad_depths;
        view.depth_scale = 1 / way, view.depth_start = -at_near / way, view.depth_terms = most_depth / std::fabs(way);
        return refusal::none;
    }

    frame(const maskcull_setup &setup, const viewing &view, const options &chosen, std::size_t count)
        : setup_(setup), view_(view), half_sizes_{view.width * 0.5, view.height * 0.5, view.width * 0.5,
                                                  view.height * 0.5},
          margins_{margin(setup.width), margin(setup.height), margin(setup.width), margin(setup.height)},
          width_(static_cast<std::int32_t>(view.width)), height_(static_cast<std::int32_t>(view.height)),
          is_down_(chosen.y_is_down), is_flat_(chosen.orthographic.has_value()),
          is_rounded_up_(view.width < setup.width || view.height < setup.height),
          known_(chosen.orthographic ? known_flat : known), scale_(view.scale),
          up_scale_(chosen.y_is_down ? -view.scale : view.scale), matrices_(chosen.matrices), tiles_(count) {}

    // A winding that isn't one stays none beside either grade.
    maskcull_setup setup_with(std::optional<maskcull_winding> winding) const {
        maskcull_setup made = setup_;
        if (!winding) return made;
        const std::uint32_t number = std::min<std::uint32_t>(*winding, MASKCULL_WIDE - 1);
        made.winding = made.winding / MASKCULL_WIDE * MASKCULL_WIDE + number;
        return made;
    }

    std::size_t columns() const { return (setup_.width + 31) / 32; }

    bool has_rows(std::uint32_t first_row, std::uint32_t rows) const {
        return !tiles_.empty() && first_row <= row_count() && rows <= row_count() - first_row;
    }

    struct double3 {
        double x, y, w;
        double3 operator-(const double3 &o) const { return {x - o.x, y - o.y, w - o.w}; }
    };

    // The rows of a matrix for x, y upwards and w, in units.
    struct matrix_rows {
        double x[4], y[4], w[4];
    };

    // Points, of which all that is between them is tested.
    template <std::size_t N> struct hull {
        double x[N], y[N], w[N];
    };

    // How far they reach: x / w to the right and y / w upwards, and the least w in units, at most `most`.
    struct extent {
        double left = most, low = most, right = -most, high = -most, nearest = most;
    };

    static_assert(sizeof(float) == 4 && std::numeric_limits<float>::digits == 24
                      && std::numeric_limits<float>::max_exponent == 128,
                  "maskcull.hpp tells by the bits of a float whether it is a number: it needs floats of IEEE 754");

    // Bits without the sign: of the least normal number, and of infinity, above which are those of no number.
    static constexpr std::uint32_t least_normal = 0x00800000, infinity = 0x7f800000;

    // The same place, of which a compiler doesn't know that it is the same. Under -ffinite-math-only it takes it that a
    // float which is passed by value, or which it has seen computed, is neither infinite nor NaN, and leaves out what
    // tests for it, even by its bits. What is read from here lies in memory for all it knows.
    static const unsigned char *hidden_from_compiler(const void *place) {
        const void *volatile kept = place;
        return static_cast<const unsigned char *>(kept);
    }

    // A float as a double; false where it is infinite or no number. In a program that is linked with -ffast-math the
    // processor takes what is below the least normal number for 0: it is made of its bits.
    static bool load(const unsigned char *at, double &value) {
        std::uint32_t bits;
        float number;
        std::memcpy(&bits, at, sizeof bits);
        std::memcpy(&number, &bits, sizeof bits);
        const std::uint32_t size = bits & 0x7fffffff;
        value = static_cast<double>(number);
        if (size - least_normal < infinity - least_normal) return true;
        value = (bits == size ? 0x1p-149 : -0x1p-149) * size;
        return size < least_normal;
    }

    static bool load(const unsigned char *at, double3 &v) {
        const bool is_first = load(at, v.x), is_second = load(at + 4, v.y), is_third = load(at + 8, v.w);
        return is_first & is_second & is_third;
    }

    // One that is known to be a number, or is looked at later.
    static double load_plain(const unsigned char *at) {
        float number;
        std::memcpy(&number, at, sizeof number);
        return static_cast<double>(number);
    }

    // z isn't among them.
    bool read(const float *matrix, matrix_rows &r) const {
        const unsigned char *at = hidden_from_compiler(matrix);
        if (at == nullptr) return false;
        if (is_flat_) return read_flat(at, r);
        const std::size_t row = matrices_ == matrix_layout::rows ? 4 : 1, column = 5 - row;
        std::uint32_t all[16], bits[12], odd = 0;
        std::memcpy(all, at, sizeof all);
        for (std::size_t k = 0; k < 4; k++) {
            bits[k] = all[column * k], bits[4 + k] = all[row + column * k], bits[8 + k] = all[3 * row + column * k];
        }
        for (std::size_t k = 0; k < 12; k++) odd |= upper_bit(bits[k]) | tiny_bit(bits[k]);
        double numbers[12];
        bool are_numbers = true;
        if (odd >> 31 == 0) {
            float kept[12];
            std::memcpy(kept, bits, sizeof kept);
            for (std::size_t k = 0; k < 12; k++) numbers[k] = static_cast<double>(kept[k]);
        } else {
            const unsigned char *first = hidden_from_compiler(bits);
            for (std::size_t k = 0; k < 12; k++) are_numbers &= load(first + 4 * k, numbers[k]);
        }
        for (std::size_t k = 0; k < 4; k++) {
            r.x[k] = numbers[k] * scale_, r.y[k] = numbers[4 + k] * up_scale_, r.w[k] = numbers[8 + k] * scale_;
        }
        return are_numbers;
    }

    // Of an orthographic view: the rows for x, y upwards and the depth. False too where it isn't such a view's matrix:
    // in its last row there is but one number, which is above 0.
    bool read_flat(const unsigned char *at, matrix_rows &r) const {
        const std::size_t row = matrices_ == matrix_layout::rows ? 16 : 4, column = 20 - row;
        double n[4][4];
        bool are_numbers = true;
        for (std::size_t j = 0; j < 4; j++) {
            for (std::size_t k = 0; k < 4; k++) are_numbers &= load(at + j * row + k * column, n[j][k]);
        }
        if (!are_numbers || n[3][0] != 0 || n[3][1] != 0 || n[3][2] != 0 || !(n[3][3] > 0)) return false;
        const double part = 1 / n[3][3], up = is_down_ ? -part : part, depth = view_.depth_scale * part;
        for (std::size_t k = 0; k < 4; k++) r.x[k] = n[0][k] * part, r.y[k] = n[1][k] * up, r.w[k] = n[2][k] * depth;
        r.w[3] += view_.depth_start;
        return true;
    }

    // Of points as they are.
    matrix_rows point_rows() const {
        if (!is_flat_) return {{scale_, 0, 0, 0}, {0, up_scale_, 0, 0}, {0, 0, scale_, 0}};
        return {{1, 0, 0, 0}, {0, is_down_ ? -1.0 : 1.0, 0, 0}, {0, 0, view_.depth_scale, view_.depth_start}};
    }

    // From the window's clip space to that of the tiles, of which the window is the upper left part: a pixel keeps its
    // place. Only for what is drawn: what is tested is taken to pixels of the window.
    void fit(matrix_rows &r) const {
        if (!is_rounded_up_) return;
        const double across = view_.width / setup_.width, up = view_.height / setup_.height;
        for (std::size_t k = 0; k < 4; k++) {
            const double w = is_flat_ ? (k == 3 ? 1 : 0) : r.w[k];
            r.x[k] = across * r.x[k] + (across - 1) * w, r.y[k] = up * r.y[k] + (1 - up) * w;
        }
    }

    // The uppermost bit is set where a float is infinite or no number.
    static std::uint32_t upper_bit(std::uint32_t bits) { return (bits & 0x7fffffff) + (0x80000000 - infinity); }

    // It is set where one is below the least normal number and not 0.
    static std::uint32_t tiny_bit(std::uint32_t bits) {
        const std::uint32_t size = bits & 0x7fffffff;
        return (size - least_normal) & (0 - size);
    }

    static double product(const double (&row)[4], const double3 &p) {
        return row[0] * p.x + row[1] * p.y + (row[2] * p.w + row[3]);
    }

    static double3 product(const matrix_rows &r, const double3 &p) {
        return {product(r.x, p), product(r.y, p), product(r.w, p)};
    }

    // The most that the terms of products come to, for points up to so far from 0.
    static double reach_of(const matrix_rows &r, const double3 &far_off) {
        return std::max({reach_of(r.x, far_off), reach_of(r.y, far_off), reach_of(r.w, far_off)});
    }

    static double reach_of(const double (&row)[4], const double3 &far_off) {
        return std::fabs(row[0]) * far_off.x + std::fabs(row[1]) * far_off.y + std::fabs(row[2]) * far_off.w
               + std::fabs(row[3]);
    }

    // The nearest whole number of what lies within twice the guard: above 0 the part behind the point is dropped,
    // however the processor is told to round, and no branch is needed.
    static std::int32_t nearest_to(double number) {
        constexpr std::int32_t above = 1 << 25;
        return static_cast<std::int32_t>(number + (above + 0.5)) - above;
    }

    // In pixels: half of one to the sample in its middle; a coordinate of an occluder moves by half a unit and w by
    // another half, at w = 1024 or more; the library rounds to a sixteenth; and what doubles lose.
    static double margin(std::uint32_t pixels) { return 0.5 + pixels * 0.5 / finest + 1.0 / 16 + 1.0 / 1024; }

    // The numbers of the first vertex and the first triangle of what is prepared.
    struct start {
        std::size_t vertex, triangle;
    };

    static start place_of(const occluders &made) { return {made.vertices.size(), made.triangles.size()}; }

    void prepare_behind(const start &from, occluders &made, const clip_point *points, std::size_t point_count,
                        const maskcull_triangle *triangles, std::size_t triangle_count) const {
        matrix_rows r = point_rows();
        fit(r);
        if (points == nullptr) point_count = 0;
        if (triangles == nullptr) triangle_count = 0;
        const knowledge known_to = fill(made.corners, r, points, sizeof(clip_point), point_count);
        round_into(made, from, known_to, index_source<std::uint32_t>{triangles}, triangle_count);
    }

    void prepare_behind(const start &from, occluders &made, const float *model_to_clip, const mesh_view &mesh) const {
        matrix_rows r;
        std::size_t vertex_count = mesh.vertex_count, triangle_count = mesh.index_count / 3;
        if (!mesh.is_there() || !read(model_to_clip, r)) vertex_count = 0, triangle_count = 0;
        fit(r);
        const knowledge known_to = fill(made.corners, r, mesh.positions, mesh.stride, vertex_count);
        if (mesh.is_short) {
            round_into(made, from, known_to, index_source<std::uint16_t>{mesh.indices}, triangle_count);
        } else {
            round_into(made, from, known_to, index_source<std::uint32_t>{mesh.indices}, triangle_count);
        }
    }

    // The most that the terms of a mesh's products come to, and whether no corner has to be cut off or is lost.
    struct knowledge {
        double reach;
        bool is_plain;
    };

    knowledge fill(detail::corners &made, const matrix_rows &r, const void *positions, std::size_t stride,
                   std::size_t count) const {
        return is_flat_ ? fill_flat(made, r, positions, stride, count)
                        : fill_corners(made, r, positions, stride, count);
    }

    // The corners of a mesh.
    static knowledge fill_corners(detail::corners &made, const matrix_rows &r, const void *positions,
                                  std::size_t stride, std::size_t count) {
        const unsigned char *at = hidden_from_compiler(positions);
        made.resize(count);
        reach_lanes reach = {};
        std::size_t k = 0;
        bool is_plain = true;
        // then it doesn't matter whether a number below the least normal one is taken for 0
        const bool is_coarse = 0x1p-126 * reach_of(r, {1, 1, 1}) < 0x1p-30;
        for (; k + lanes <= count; k += lanes, at += lanes * stride) {
            if (is_coarse && fill_lanes(made, r, at, stride, k, reach)) continue;
            for (std::size_t j = 0; j < lanes; j++) is_plain &= fill_one(made, r, at + j * stride, k + j, reach);
        }
        for (; k < count; k++, at += stride) is_plain &= fill_one(made, r, at, k, reach);
        const double3 far_off = {static_cast<double>(greatest_of(reach.x)), static_cast<double>(greatest_of(reach.y)),
                                 static_cast<double>(greatest_of(reach.z))};
        return {count == 0 ? guard : std::max(guard, reach_of(r, far_off)), is_plain};
    }

    // The most of each coordinate, by lanes.
    struct reach_lanes {
        float x[lanes], y[lanes], z[lanes];
    };

    // Some corners at a time; false where one of them has to be looked at by itself.
    static bool fill_lanes(detail::corners &made, const matrix_rows &r, const unsigned char *at, std::size_t stride,
                           std::size_t k, reach_lanes &reach) {
        std::uint32_t bits[3][lanes];
        for (std::size_t j = 0; j < lanes; j++, at += stride) {
            std::memcpy(&bits[0][j], at, 4);
            std::memcpy(&bits[1][j], at + 4, 4);
            std::memcpy(&bits[2][j], at + 8, 4);
        }
        std::uint32_t odd = 0;
        for (std::size_t j = 0; j < lanes; j++) {
            odd |= upper_bit(bits[0][j]) | upper_bit(bits[1][j]) | upper_bit(bits[2][j]);
        }
        float p[3][lanes];
        std::memcpy(p, bits, sizeof p);
        double x[lanes], y[lanes], w[lanes], far_off[lanes];
        for (std::size_t j = 0; j < lanes; j++) {
            const auto px = static_cast<double>(p[0][j]), py = static_cast<double>(p[1][j]);
            const auto pz = static_cast<double>(p[2][j]);
            x[j] = r.x[0] * px + r.x[1] * py + (r.x[2] * pz + r.x[3]);
            y[j] = r.y[0] * px + r.y[1] * py + (r.y[2] * pz + r.y[3]);
            w[j] = r.w[0] * px + r.w[1] * py + (r.w[2] * pz + r.w[3]);
            far_off[j] = greater(greater(std::fabs(x[j]), std::fabs(y[j])), std::fabs(w[j]));
        }
        if (odd >> 31 != 0 || !(greatest_of(far_off) <= farthest)) return false;
        for (std::size_t j = 0; j < lanes; j++) {
            reach.x[j] = greater(reach.x[j], std::fabs(p[0][j]));
            reach.y[j] = greater(reach.y[j], std::fabs(p[1][j]));
            reach.z[j] = greater(reach.z[j], std::fabs(p[2][j]));
        }
        std::memcpy(made.x.data() + k, x, sizeof x);
        std::memcpy(made.y.data() + k, y, sizeof y);
        std::memcpy(made.w.data() + k, w, sizeof w);
        for (std::size_t j = 0; j < lanes; j++) made.factor[k + j] = 1;
        return true;
    }

    // One that may be no number, below the least normal one, or far off: whether it can be drawn as it is.
    static bool fill_one(detail::corners &made, const matrix_rows &r, const unsigned char *at, std::size_t k,
                         reach_lanes &reach) {
        double3 p, v = {known, 0, 0};
        const bool is_number = load(at, p);
        if (is_number) v = product(r, p);
        const double far_off = size(v);
        const bool is_known = is_number && far_off < known;
        if (!is_known) v = {known, 0, 0};
        made.x[k] = v.x, made.y[k] = v.y, made.w[k] = v.w;
        made.factor[k] = !is_known ? lost : far_off <= farthest ? 1 : beyond;
        if (!is_known) return false;
        reach.x[0] = std::max(reach.x[0], static_cast<float>(std::fabs(p.x)));
        reach.y[0] = std::max(reach.y[0], static_cast<float>(std::fabs(p.y)));
        reach.z[0] = std::max(reach.z[0], static_cast<float>(std::fabs(p.w)));
        return far_off <= farthest;
    }

    // The corners of a mesh in an orthographic view. What x, y and depths lose is set against what is known of units:
    // w is at most 2^20, and grows by less than 2^24 times the depth.
    knowledge fill_flat(detail::corners &made, const matrix_rows &r, const void *positions, std::size_t stride,
                        std::size_t count) const {
        const unsigned char *at = hidden_from_compiler(positions);
        made.resize(0);
        double3 far_off = {0, 0, 0};
        double away = 1;
        for (std::size_t k = 0; k < count; k++, at += stride) {
            double3 p, v;
            bool is_known = load(at, p);
            if (is_known) v = product(r, p), is_known = size(v) < known_flat;
            add_flat(made, is_known ? v : double3{0, 0, 0});
            if (!is_known) {
                made.factor[k] = lost;
                continue;
            }
            away = std::max({away, std::fabs(v.x), std::fabs(v.y)});
            far_off = {std::max(far_off.x, std::fabs(p.x)), std::max(far_off.y, std::fabs(p.y)),
                       std::max(far_off.w, std::fabs(p.w))};
        }
        const double across = std::max(reach_of(r.x, far_off), reach_of(r.y, far_off)) + 1;
        const double down = reach_of(r.w, far_off) + view_.depth_terms + 1;
        return {std::max(guard, 0x1p20 * across + 0x1p23 * away * down), false};
    }

    static void add_flat(detail::corners &made, const double3 &p) {
        const bool is_shown = p.w <= 1;
        const double3 v = is_shown ? in_units(p) : p;
        made.x.push_back(v.x), made.y.push_back(v.y), made.w.push_back(v.w);
        made.factor.push_back(!is_shown ? past_far_plane : size(v) <= farthest ? 1 : beyond);
    }

    static double3 in_units(const double3 &p) {
        const double w = flat_near / (1 - flat_part * p.w);
        return {p.x * w, p.y * w, w};
    }

    // An object's corner: it isn't held to be farther than it is, nor than the far plane. What of it is nearer than the
    // near plane isn't shown.
    static double3 tested_in_units(const double3 &p) {
        return in_units({p.x, p.y, std::min(std::max(p.w - 0x1p-32, 0.0), 1.0)});
    }

    template <class Number> static Number greater(Number p, Number q) { return p > q ? p : q; }

    // The numbers of three corners for each triangle, where they lie.
    template <class Index> struct index_source {
        const void *first;

        template <std::size_t Count> void copy(std::size_t k, std::uint32_t (&numbers)[Count]) const {
            Index kept[Count];
            std::memcpy(kept, static_cast<const unsigned char *>(first) + 3 * sizeof(Index) * k, sizeof kept);
            for (std::size_t j = 0; j < Count; j++) numbers[j] = kept[j];
        }

        maskcull_triangle one(std::size_t k) const {
            std::uint32_t numbers[3];
            copy(k, numbers);
            return {numbers[0], numbers[1], numbers[2]};
        }
    };

    // In units: a triangle's plane is a x + b y + c w = 1. Rounding moves a vertex by up to half a unit along each
    // axis, which lowers the left side by `rounding` at most, and snapping by a sixteenth of a pixel at most, which
    // lowers it by w * `snapping`. So a vertex that is taken away from the eye by the factor below has a left side of 1
    // at least: no point of the drawn triangle is nearer than the plane there. A vertex of more triangles takes their
    // greatest factor, so that neighbours keep their common edge without a gap.
    template <class Number> struct tilt {
        Number level, rounding, snapping;

        // How much of `steepest` a triangle takes that reaches to w. More can't be drawn, and none where `level` isn't
        // above 0: then the plane isn't known well enough, or passes the eye too closely.
        Number burden(Number w) const { return rounding + snapping * positive(w); }

        // (1 + rounding) / (1 - snapping w), or a little more.
        Number factor(Number w) const {
            const Number part = snapping * positive(w);
            return (1 + rounding) * (1 + part * (1 + part * Number(1 / (1 - steepest))));
        }

        // w, or 0 where it is below. Compilers make a branch of another form.
        static Number positive(Number w) { return Number(0.5) * (w + std::fabs(w)); }
    };

    // How well a triangle's corners are known, in units, and a factor's numbers, one part in so many.
    template <class Number> struct slack {
        Number slip, loss, across, down;
    };

    template <class Number> slack<Number> slack_of(double slip, Number loss) const {
        return {static_cast<Number>(slip), loss, static_cast<Number>(0.125 / setup_.width),
                static_cast<Number>(0.125 / setup_.height)};
    }

    // The tilt of a triangle, by its first corner and two sides from there. All that these numbers lose is set against
    // it: each part of the normal may be off by `off`.
    template <class Number>
    static tilt<Number> tilt_of(const Number (&v)[3], const Number (&p)[3], const Number (&q)[3],
                                const slack<Number> &s) {
        const Number x = p[1] * q[2] - p[2] * q[1], y = p[2] * q[0] - p[0] * q[2], w = p[0] * q[1] - p[1] * q[0];
        const Number length1 = sum(p), length2 = sum(q), away = sum(v);
        const Number off = s.slip * (length1 + length2 + s.slip) + s.loss * (length1 * length2);
        const Number a = std::fabs(x) + off, b = std::fabs(y) + off, c = std::fabs(w) + off, slope = a + b + c;
        const Number unsure = (off + s.loss * slope) * away + s.slip * slope;
        const Number level = std::fabs(x * v[0] + y * v[1] + w * v[2]) - unsure;
        const Number part = 1 / level;
        const Number snapping = (a * s.across + b * s.down) * part;
        // and what numbers lose behind here
        return {level, (Number(0.5) + s.slip) * (slope * part + snapping) + Number(1e-5), snapping};
    }

    template <class Number> static Number sum(const Number (&p)[3]) {
        return std::fabs(p[0]) + std::fabs(p[1]) + std::fabs(p[2]);
    }

    // Rounds the corners that were filled in, and takes the triangles that can be drawn. Corners are known to a part of
    // how far products, and cuts between two corners, reach.
    template <class Index>
    void round_into(occluders &made, const start &from, const knowledge &known_to, const index_source<Index> &source,
                    std::size_t triangle_count) const {
        // where terms reach farther all triangles are put off, and then dropped
        const bool is_within = known_to.reach < known;
        const double slip = 0x1p-48 * std::min(known_to.reach, known);
        const slack<float> s = slack_of<float>(slip, 0x1p-21f);
        made.triangles.resize(from.triangle + triangle_count);
        made.unclear.clear();
        maskcull_triangle *next = made.triangles.data() + from.triangle;
        std::size_t k = 0;
        for (; is_within && !is_flat_ && k + lanes <= triangle_count; k += lanes) {
            std::uint32_t some[3 * lanes];
            source.copy(k, some);
            if (are_below(some, made.corners.factor.size())) {
                next = take_lanes(made, some, s, next, from.vertex, known_to.is_plain);
            } else {
                for (std::size_t j = 0; j < lanes; j++) next = put_off(made, source.one(k + j), next);
            }
        }
        for (; k < triangle_count; k++) next = put_off(made, source.one(k), next);
        made.triangles.resize(static_cast<std::size_t>(next - made.triangles.data()));
        for (const maskcull_triangle &t : made.unclear) {
            if (is_flat_) {
                take_flat(made, t, known_to.reach, slip, from.vertex);
            } else {
                take_one(made, t, known_to.reach, slip, from.vertex);
            }
        }
        add_vertices(made.corners, made.vertices, from.vertex);
    }

    // Whether numbers are below a count, which is at most 2^31: else the uppermost bit of one, or of how far it is
    // below the last, is set.
    static bool are_below(const std::uint32_t (&numbers)[3 * lanes], std::size_t count) {
        if (count == 0 || count > 0x80000000) return false;
        const auto last = static_cast<std::uint32_t>(count - 1);
        std::uint32_t odd = 0;
        for (std::size_t j = 0; j < 3 * lanes; j++) odd |= numbers[j] | (last - numbers[j]);
        return odd >> 31 == 0;
    }

    // A triangle that is to be looked at in doubles, unless it names a corner that isn't there.
    static maskcull_triangle *put_off(occluders &made, const maskcull_triangle &t, maskcull_triangle *next) {
        if (std::max({t.a, t.b, t.c}) < made.corners.factor.size()) {
            made.unclear.push_back(t);
        } else {
            *next++ = {not_there, not_there, not_there};
        }
        return next;
    }

    // Some triangles at a time, in floats.
    static maskcull_triangle *take_lanes(occluders &made, const std::uint32_t (&some)[3 * lanes], const slack<float> &s,
                                         maskcull_triangle *next, std::size_t first, bool is_plain) {
        const double *x = made.corners.x.data(), *y = made.corners.y.data(), *w = made.corners.w.data();
        float v[3][lanes], p[3][lanes], q[3][lanes];
        for (std::size_t j = 0; j < lanes; j++) {
            const std::size_t a = some[3 * j], b = some[3 * j + 1], c = some[3 * j + 2];
            const double x0 = x[a], y0 = y[a], w0 = w[a];
            v[0][j] = static_cast<float>(x0), v[1][j] = static_cast<float>(y0), v[2][j] = static_cast<float>(w0);
            p[0][j] = static_cast<float>(x[b] - x0), q[0][j] = static_cast<float>(x[c] - x0);
            p[1][j] = static_cast<float>(y[b] - y0), q[1][j] = static_cast<float>(y[c] - y0);
            p[2][j] = static_cast<float>(w[b] - w0), q[2][j] = static_cast<float>(w[c] - w0);
        }
        float level[lanes], burden[lanes], factors[3][lanes];
        for (std::size_t j = 0; j < lanes; j++) {
            const float first_w = v[2][j], second_w = first_w + p[2][j], third_w = first_w + q[2][j];
            const tilt<float> it = tilt_of<float>({v[0][j], v[1][j], first_w}, {p[0][j], p[1][j], p[2][j]},
                                                  {q[0][j], q[1][j], q[2][j]}, s);
            level[j] = it.level;
            burden[j] = it.burden(greater(first_w, greater(second_w, third_w)));
            factors[0][j] = it.factor(first_w), factors[1][j] = it.factor(second_w), factors[2][j] = it.factor(third_w);
        }
        float *factor = made.corners.factor.data();
        std::int32_t unclear[lanes], any = is_plain ? 0 : 1;
        for (std::size_t j = 0; j < lanes; j++) {
            unclear[j] = (level[j] > 0 ? 0 : 1) | (burden[j] < static_cast<float>(steepest) ? 0 : 1);
        }
        for (std::size_t j = 0; j < lanes; j++) any |= unclear[j];
        if (any == 0) {
            for (std::size_t j = 0; j < lanes; j++) {
                float &a = factor[some[3 * j]], &b = factor[some[3 * j + 1]], &c = factor[some[3 * j + 2]];
                a = greater(a, factors[0][j]), b = greater(b, factors[1][j]), c = greater(c, factors[2][j]);
            }
            std::uint32_t numbers[3 * lanes];
            for (std::size_t j = 0; j < 3 * lanes; j++) numbers[j] = some[j] + static_cast<std::uint32_t>(first);
            std::memcpy(next, numbers, sizeof numbers);
            return next + lanes;
        }
        for (std::size_t j = 0; j < lanes; j++) {
            const maskcull_triangle t = {some[3 * j], some[3 * j + 1], some[3 * j + 2]};
            float &a = factor[t.a], &b = factor[t.b], &c = factor[t.c];
            if (unclear[j] == 0 && greater(a, greater(b, c)) < beyond) {
                a = greater(a, factors[0][j]), b = greater(b, factors[1][j]), c = greater(c, factors[2][j]);
                *next++ = number_from(t, first);
            } else {
                made.unclear.push_back(t);
            }
        }
        return next;
    }

    static maskcull_triangle number_from(const maskcull_triangle &t, std::size_t first) {
        const auto by = static_cast<std::uint32_t>(first);
        return {t.a + by, t.b + by, t.c + by};
    }

    // By its factor further from the eye along its ray, so that a corner stays where it is on the screen, and then
    // rounded.
    static void add_vertices(const detail::corners &all, std::vector<maskcull_vertex> &vertices, std::size_t first) {
        const std::size_t count = all.factor.size();
        vertices.resize(first + count);
        maskcull_vertex *made = vertices.data() + first;
        std::size_t k = 0;
        for (; k + lanes <= count; k += lanes) {
            if (round_lanes(all, k, made + k)) continue;
            for (std::size_t j = k; j < k + lanes; j++) made[j] = rounded(all, j);
        }
        for (; k < count; k++) made[k] = rounded(all, k);
    }

    // No triangle has a corner that is beyond or lost: it goes past the guard.
    static maskcull_vertex rounded(const detail::corners &all, std::size_t k) {
        if (!(all.factor[k] < beyond)) return {static_cast<std::int32_t>(most), 0, 0};
        const auto factor = static_cast<double>(all.factor[k]);
        return {nearest_to(all.x[k] * factor), nearest_to(all.y[k] * factor), nearest_to(all.w[k] * factor)};
    }

    // Some corners at a time; false where one of them isn't drawn.
    static bool round_lanes(const detail::corners &all, std::size_t k, maskcull_vertex *made) {
        float factor[lanes];
        double x[lanes], y[lanes], w[lanes];
        std::memcpy(factor, all.factor.data() + k, sizeof factor);
        std::memcpy(x, all.x.data() + k, sizeof x);
        std::memcpy(y, all.y.data() + k, sizeof y);
        std::memcpy(w, all.w.data() + k, sizeof w);
        if (!(greatest_of(factor) < beyond)) return false;
        std::int32_t whole[3][lanes];
        for (std::size_t j = 0; j < lanes; j++) {
            const auto by = static_cast<double>(factor[j]);
            whole[0][j] = nearest_to(x[j] * by), whole[1][j] = nearest_to(y[j] * by);
            whole[2][j] = nearest_to(w[j] * by);
        }
        for (std::size_t j = 0; j < lanes; j++) made[j] = {whole[0][j], whole[1][j], whole[2][j]};
        return true;
    }

    // A convex part of a triangle. A corner that the triangle had keeps its number, so that neighbours share it. Six
    // cuts leave nine corners; there is room too for what they could leave where rounding made it bent: half as many
    // more each.
    struct polygon {
        double3 corners[32];
        std::uint32_t numbers[32];
        int count;
    };

    static constexpr std::uint32_t not_there = 0xffffffff;

    // Cuts off what is farther along an axis than a bound, by the sign of the side. Where two triangles share an edge,
    // both cut it at the same point.
    static polygon cut(const polygon &whole, double double3::*axis, double side, double bound) {
        polygon left_over;
        left_over.count = 0;
        for (int k = 0; k < whole.count; k++) {
            const int after = k + 1 < whole.count ? k + 1 : 0;
            const double3 &p = whole.corners[k], &q = whole.corners[after];
            const double inside = bound - side * (p.*axis), next_inside = bound - side * (q.*axis);
            if (inside >= 0) add(left_over, p, whole.numbers[k]);
            if ((inside >= 0) == (next_inside >= 0)) continue;
            const double3 &from = inside >= 0 ? p : q, &to = inside >= 0 ? q : p;
            const double room = std::max(inside, next_inside), part = room / (room - std::min(inside, next_inside));
            const double3 way = to - from;
            add(left_over, {from.x + way.x * part, from.y + way.y * part, from.w + way.w * part}, not_there);
        }
        return left_over;
    }

    static void add(polygon &p, const double3 &it, std::uint32_t number) {
        p.corners[p.count] = it;
        p.numbers[p.count++] = number;
    }

    // A triangle in doubles. One that reaches farther than can be drawn is cut, and so is one that is seen too much
    // from its edge: that is so the less the nearer it is, so that a part of it can be drawn. What is left over lies
    // within the triangle.
    void take_one(occluders &made, const maskcull_triangle &t, double reach, double slip, std::size_t first) const {
        const std::uint32_t numbers[3] = {t.a, t.b, t.c};
        const detail::corners &all = made.corners;
        polygon left_over;
        left_over.count = 0;
        float worst = 1;
        for (const std::uint32_t k : numbers) {
            add(left_over, {all.x[k], all.y[k], all.w[k]}, k);
            worst = std::max(worst, all.factor[k]);
        }
        if (worst == lost || !(reach < known)) return;
        const double3 &v = left_over.corners[0], p = left_over.corners[1] - v, q = left_over.corners[2] - v;
        const tilt<double> found = tilt_of<double>({v.x, v.y, v.w}, {p.x, p.y, p.w}, {q.x, q.y, q.w},
                                                   slack_of<double>(slip, 0x1p-50));
        const double room = steepest - found.rounding;
        // seen from its edge also where it is nearest
        if (!(found.level > 0 && found.snapping * 2 * finest < room)) return;
        const double far_end = found.snapping * farthest < room ? farthest : room / found.snapping;
        if (worst == beyond || greatest_w(left_over) > far_end) cut_off(left_over, far_end);
        if (is_flat_) cut_near_plane(left_over, found);
        if (left_over.count < 3) return;
        for (int k = 0; k < left_over.count; k++) add_corner(made.corners, left_over, k, found);
        for (int k = 2; k < left_over.count; k++) {
            const maskcull_triangle part = {left_over.numbers[0], left_over.numbers[k - 1], left_over.numbers[k]};
            made.triangles.push_back(number_from(part, first));
        }
    }

    // In an orthographic view: what is farther than the far plane is cut off before the corners get their distances,
    // which beyond it are soon infinite.
    void take_flat(occluders &made, const maskcull_triangle &t, double reach, double slip, std::size_t first) const {
        const std::uint32_t numbers[3] = {t.a, t.b, t.c};
        const detail::corners &all = made.corners;
        polygon p;
        p.count = 0;
        float worst = 1;
        for (const std::uint32_t k : numbers) {
            worst = std::max(worst, all.factor[k]);
            const double3 v = {all.x[k], all.y[k], all.w[k]};
            const bool is_shown = all.factor[k] < past_far_plane;
            add(p, is_shown ? double3{v.x / v.w, v.y / v.w, (1 - flat_near / v.w) / flat_part} : v, k);
        }
        if (worst < past_far_plane) return take_one(made, t, reach, slip, first);
        if (worst == lost) return;
        p = cut(p, &double3::w, 1, 1);
        for (int k = 0; k < p.count; k++) {
            if (p.numbers[k] != not_there) continue;
            p.numbers[k] = static_cast<std::uint32_t>(all.factor.size());
            add_flat(made.corners, {p.corners[k].x, p.corners[k].y, std::min(p.corners[k].w, 1.0)});
        }
        for (int k = 2; k < p.count; k++) {
            take_one(made, {p.numbers[0], p.numbers[k - 1], p.numbers[k]}, reach, slip, first);
        }
    }

    // In an orthographic view: nothing is drawn where the triangle lies before the near plane, although rounding and
    // snapping move its corners. Behind the near plane by the factor there the plane through each drawn point is too.
    static void cut_near_plane(polygon &p, const tilt<double> &found) {
        const double near_end = flat_near * found.factor(flat_near) * (1 + 0x1p-16);
        bool is_cut = false;
        for (int k = 0; k < p.count; k++) is_cut |= p.corners[k].w < near_end;
        if (is_cut) p = cut(p, &double3::w, -1, -near_end);
    }

    static double greatest_w(const polygon &p) {
        return std::max({p.corners[0].w, p.corners[1].w, p.corners[2].w});
    }

    static void cut_off(polygon &p, double far_end) {
        p = cut(p, &double3::w, 1, far_end);
        p = cut(p, &double3::w, -1, -cut_near);
        for (const double side : {1.0, -1.0}) {
            p = cut(p, &double3::x, side, farthest);
            p = cut(p, &double3::y, side, farthest);
        }
    }

    static void add_corner(detail::corners &made, polygon &p, int k, const tilt<double> &found) {
        const double3 &v = p.corners[k];
        const auto factor = static_cast<float>(found.factor(v.w));
        if (p.numbers[k] == not_there) {
            p.numbers[k] = static_cast<std::uint32_t>(made.factor.size());
            made.x.push_back(v.x), made.y.push_back(v.y), made.w.push_back(v.w);
            made.factor.push_back(1);
        }
        float &held = made.factor[p.numbers[k]];
        held = std::max(held, factor);
    }

    // The eight sums for one row of a matrix.
    static void set_sums(double (&sums)[8], const double (&row)[4], const double3 &low, const double3 &high) {
        const double left = row[0] * low.x, right = row[0] * high.x, under = row[1] * low.y, over = row[1] * high.y;
        const double before = row[2] * low.w + row[3], behind = row[2] * high.w + row[3];
        const double four[4] = {left + under, right + under, left + over, right + over};
        for (int k = 0; k < 4; k++) sums[k] = four[k] + before;
        for (int k = 0; k < 4; k++) sums[4 + k] = four[k] + behind;
    }

    // A box's corners; false where a number of it is none, or a corner isn't known.
    bool set_corners(hull<8> &h, const float *matrix, const float *low, const float *high) const {
        matrix_rows r;
        double3 first, last;
        if (!read(matrix, r) || !load(hidden_from_compiler(low), first) || !load(hidden_from_compiler(high), last)) {
            return false;
        }
        const double3 far_off = {std::max(std::fabs(first.x), std::fabs(last.x)),
                                 std::max(std::fabs(first.y), std::fabs(last.y)),
                                 std::max(std::fabs(first.w), std::fabs(last.w))};
        if (!(reach_of(r, far_off) < known_)) return false;
        set_sums(h.x, r.x, first, last), set_sums(h.y, r.y, first, last), set_sums(h.w, r.w, first, last);
        for (std::size_t k = 0; k < 8 && is_flat_; k++) {
            const double3 v = tested_in_units({h.x[k], h.y[k], h.w[k]});
            h.x[k] = v.x, h.y[k] = v.y, h.w[k] = v.w;
        }
        return true;
    }

    // The same at once, where no number needs a closer look; false where one may. The sum of all terms is infinite or
    // no number where one is; then, and where it is too great, its bits are those of a greater number. What is added to
    // it makes it great too where a number below the least normal one matters, since that may be taken for 0.
    bool set_plain_corners(hull<8> &h, const float *matrix, const float *low, const float *high) const {
        constexpr double tiny = 0x1p-74;
        const unsigned char *l = hidden_from_compiler(low), *u = hidden_from_compiler(high);
        const double3 first = {load_plain(l), load_plain(l + 4), load_plain(l + 8)};
        const double3 last = {load_plain(u), load_plain(u + 4), load_plain(u + 8)};
        const double3 far_off = {std::fabs(first.x) + std::fabs(last.x) + tiny,
                                 std::fabs(first.y) + std::fabs(last.y) + tiny,
                                 std::fabs(first.w) + std::fabs(last.w) + tiny};
        const unsigned char *m = hidden_from_compiler(matrix);
        const std::size_t row = matrices_ == matrix_layout::rows ? 16 : 4, column = 20 - row;
        matrix_rows r;
        double reach = tiny * scale_ * (far_off.x + far_off.y + far_off.w + 1);
        const auto take = [&](double (&numbers)[4], std::size_t number, double scale, double (&sums)[8]) {
            const unsigned char *at = m + number * row;
            for (int k = 0; k < 4; k++, at += column) numbers[k] = load_plain(at) * scale;
            reach += std::fabs(numbers[0]) * far_off.x + std::fabs(numbers[1]) * far_off.y
                     + std::fabs(numbers[2]) * far_off.w + std::fabs(numbers[3]);
            set_sums(sums, numbers, first, last);
        };
        take(r.x, 0, scale_, h.x), take(r.y, 1, up_scale_, h.y), take(r.w, 3, scale_, h.w);
        const unsigned char *kept = hidden_from_compiler(&reach);
        std::uint64_t bits, most_bits;
        constexpr double limit = known;
        std::memcpy(&bits, kept, sizeof bits), std::memcpy(&most_bits, &limit, sizeof limit);
        return bits < most_bits;
    }

    // The least and the greatest of some numbers, by halves: so compilers make vectors of it.
    template <std::size_t N> static double least_of(const double (&n)[N]) {
        if constexpr (N == 1) {
            return n[0];
        } else {
            double half[N - N / 2];
            for (std::size_t k = 0; k < N - N / 2; k++) half[k] = n[k] < n[k + N / 2] ? n[k] : n[k + N / 2];
            return least_of(half);
        }
    }

    template <class Number, std::size_t N> static Number greatest_of(const Number (&n)[N]) {
        if constexpr (N == 1) {
            return n[0];
        } else {
            Number half[N - N / 2];
            for (std::size_t k = 0; k < N - N / 2; k++) half[k] = greater(n[k], n[k + N / 2]);
            return greatest_of(half);
        }
    }

    template <std::size_t N> verdict verdict_of(hull<N> &h) const {
        extent e;
        e.nearest = least_of(h.w);
        if (!(e.nearest >= finest)) return is_outside(h) ? verdict::outside : verdict::visible;
        for (std::size_t k = 0; k < N; k++) {
            const double part = 1 / h.w[k];
            h.x[k] *= part, h.y[k] *= part;
        }
        e.left = least_of(h.x), e.right = greatest_of(h.x);
        e.low = least_of(h.y), e.high = greatest_of(h.y);
        return verdict_of(e);
    }

    // Whether all points lie beyond one side of the screen, by the margin, or behind the eye: so does all between them.
    template <std::size_t N> bool is_outside(const hull<N> &h) const {
        const double right = 1 + margins_[0] / half_sizes_[0], top = 1 + margins_[1] / half_sizes_[1];
        double past_right[N], past_left[N], past_top[N], past_bottom[N];
        for (std::size_t k = 0; k < N; k++) {
            const double across = right * h.w[k], up = top * h.w[k];
            past_right[k] = h.x[k] - across, past_left[k] = -h.x[k] - across;
            past_top[k] = h.y[k] - up, past_bottom[k] = -h.y[k] - up;
        }
        return least_of(past_right) > 0 || least_of(past_left) > 0 || least_of(past_top) > 0
               || least_of(past_bottom) > 0 || greatest_of(h.w) < -1;
    }

    // Outwards to whole pixels, past all that the edge of an occluder may have moved; the distance down, so that the
    // object isn't held to be farther than its nearest point.
    verdict verdict_of(const extent &e) const {
        const double inside[4] = {1 + e.left, 1 - e.high, 1 - e.right, 1 + e.low};
        std::int32_t pixels[4];
        for (std::size_t k = 0; k < 4; k++) {
            const double some = greater(inside[k] * half_sizes_[k] - margins_[k], 0.0), all = 2 * half_sizes_[k];
            pixels[k] = static_cast<std::int32_t>(some < all ? some : all);
        }
        const maskcull_area area{pixels[0], pixels[1], width_ - pixels[2], height_ - pixels[3]};
        if (area.x0 >= area.x1 || area.y0 >= area.y1) return verdict::outside;
        const auto w = static_cast<std::int32_t>(e.nearest < most ? e.nearest : most);
        const std::uint32_t answer = maskcull_test(&setup_, tiles_.data(), tiles_.size(), &area, w);
        if (recorder_ != nullptr) recorder_->add(area, w, answer);
        return answer == MASKCULL_OCCLUDED  ? verdict::occluded
               : answer == MASKCULL_OUTSIDE ? verdict::outside
                                            : verdict::visible;
    }

    bool are_flat_hidden(const clip_point *points, std::size_t count) const {
        const std::uint16_t *none = nullptr;
        return all_at_once(point_rows(), mesh_view(points, sizeof(clip_point), count, none, 0)) == verdict::occluded;
    }

    // All vertices as one rectangle: visible where that can't be told.
    verdict all_at_once(const matrix_rows &r, const mesh_view &mesh) const {
        const unsigned char *at = hidden_from_compiler(mesh.positions);
        extent e;
        for (std::size_t k = 0; k < mesh.vertex_count; k++, at += mesh.stride) {
            double3 p;
            if (!load(at, p) || !(reach_of(r, sizes(p)) < known_)) return verdict::visible;
            double3 v = product(r, p);
            if (is_flat_) v = tested_in_units(v);
            if (!(v.w >= finest)) return verdict::visible;
            const double part = 1 / v.w, x = v.x * part, y = v.y * part;
            e.left = std::min(e.left, x), e.right = std::max(e.right, x);
            e.low = std::min(e.low, y), e.high = std::max(e.high, y);
            e.nearest = std::min(e.nearest, v.w);
        }
        return verdict_of(e);
    }

    template <class Index>
    verdict one_by_one(const matrix_rows &r, const mesh_view &mesh, const index_source<Index> &source) const {
        const unsigned char *at = hidden_from_compiler(mesh.positions);
        verdict found = verdict::outside;
        for (std::size_t k = 0; k < mesh.index_count / 3; k++) {
            std::uint32_t numbers[3];
            source.copy(k, numbers);
            hull<3> h;
            for (int corner = 0; corner < 3; corner++) {
                double3 p;
                if (numbers[corner] >= mesh.vertex_count || !load(at + numbers[corner] * mesh.stride, p)
                    || !(reach_of(r, sizes(p)) < known_)) {
                    return verdict::visible;
                }
                double3 v = product(r, p);
                if (is_flat_) v = tested_in_units(v);
                h.x[corner] = v.x, h.y[corner] = v.y, h.w[corner] = v.w;
            }
            const verdict one = verdict_of(h);
            if (one == verdict::visible) return one;
            if (one == verdict::occluded) found = one;
        }
        return found;
    }

    static double3 sizes(const double3 &p) { return {std::fabs(p.x), std::fabs(p.y), std::fabs(p.w)}; }

    static double size(const double3 &p) { return std::max({std::fabs(p.x), std::fabs(p.y), std::fabs(p.w)}); }

    maskcull_setup setup_;
    viewing view_;
    // For the left, upper, right and lower edge of what is tested: half the window, and the margin.
    double half_sizes_[4], margins_[4];
    std::int32_t width_, height_; // of the window
    bool is_down_, is_flat_, is_rounded_up_;
    double known_; // how far the terms of a tested point may reach
    // From clip space to units, in perspective.
    double scale_, up_scale_;
    matrix_layout matrices_;
    std::vector<maskcull_tile> tiles_;
    occluders room_;
    recorder *recorder_ = nullptr;
};

} // namespace maskcull

#include "maskcull_exact.hpp"

#endif
