// SPDX-License-Identifier: MIT OR Apache-2.0
//
// For programs that are written for Intel's Masked Software Occlusion Culling: its class and calls, by name, over
// maskcull.hpp. Take this folder into the path of headers in place of Intel's, and link libmaskcull_c.a. The names and
// defaults were written from memory of the published interface, and nothing of Intel's is in this file. No proof covers
// it; vertex layouts and scissors are its own. What keeps its meaning:
//
// - Create, Destroy, ClearBuffer, TransformVertices, GetResolution, GetNearClipPlane. The implementation isn't chosen.
// - SetResolution and SetNearClipPlane clear. Sizes are any from 1 to 2048. A near distance has to be set, the one that
//   the renderer cuts at, in w's unit: before that, and with another size, nothing hides, and IsReady is false. Nothing
//   nearer than 8/7 of it hides or is hidden.
// - RenderTriangles draws the same. It answers VIEW_CULLED only for what is outside, not for what faces away, and never
//   OCCLUDED.
// - TestRect is by the pixels' middles, as all tests are.
// - TestTriangles tests both sides of a triangle, whatever the winding: it may say VISIBLE more often.
// - ComputeBinWidthHeight, BinTriangles, RenderTrilist leave the same picture as RenderTriangles. Bins share rows of
//   the screen alone: lists of columns behind the first stay empty. Threads may bin side by side, and render lists of
//   different rows side by side.
// - ComputePixelDepthBuffer writes 1 / w, or -1 where nothing is known.
// - ClipPlanes aren't read: what reaches past one is cut.
//
// Not here, so that a program that needs them doesn't compile: MergeBuffer (a tile keeps two depths, so two tiles can't
// be merged without loss), own allocation (maskcull allocates in vectors), statistics, recorders (maskcull::recorder
// has another form).
#ifndef MASKCULL_MASKED_OCCLUSION_CULLING_H
#define MASKCULL_MASKED_OCCLUSION_CULLING_H

#include "maskcull.hpp"

/// Precondition, as of Intel's: while one thread renders or clears, no other uses the object, but to render lists of
/// other rows. Any number of threads may bin and test.
class MaskedOcclusionCulling {
public:
    enum Implementation { SSE2 = 0, SSE41 = 1, AVX2 = 2, AVX512 = 3 };
    enum BackfaceWinding { BACKFACE_NONE = 0, BACKFACE_CW = 1, BACKFACE_CCW = 2 };
    enum CullingResult { VISIBLE = 0, OCCLUDED = 1, VIEW_CULLED = 3 };
    enum ClipPlanes {
        CLIP_PLANE_NONE = 0, CLIP_PLANE_NEAR = 1, CLIP_PLANE_LEFT = 2, CLIP_PLANE_RIGHT = 4, CLIP_PLANE_BOTTOM = 8,
        CLIP_PLANE_TOP = 16, CLIP_PLANE_SIDES = 30, CLIP_PLANE_ALL = 31
    };

    /// Where a vertex's numbers lie, in bytes. The third is z before a matrix, and w without one.
    struct VertexLayout {
        VertexLayout() = default;
        VertexLayout(int stride, int y, int zw) : mStride(stride), mOffsetY(y), mOffsetZ(zw) {}
        int mStride = 16, mOffsetY = 4;
        union { int mOffsetZ = 12, mOffsetW; };
    };

    struct ScissorRect {
        ScissorRect() = default;
        ScissorRect(int x0, int y0, int x1, int y1) : mMinX(x0), mMinY(y0), mMaxX(x1), mMaxY(y1) {}
        int mMinX = 0, mMinY = 0, mMaxX = 0, mMaxY = 0;
    };

    /// Room for mNumTriangles triangles of nine floats. What lies there is maskcull's own: a triangle that is cut takes
    /// the room of several.
    struct TriList {
        unsigned mNumTriangles, mTriIdx;
        float *mPtr;
    };

    static MaskedOcclusionCulling *Create(Implementation = AVX512) { return new MaskedOcclusionCulling; }
    static void Destroy(MaskedOcclusionCulling *it) { delete it; }
    Implementation GetImplementation() const { return SSE41; }

    void SetResolution(unsigned width, unsigned height) { width_ = width, height_ = height, make(); }
    void GetResolution(unsigned &width, unsigned &height) const { width = width_, height = height_; }
    void SetNearClipPlane(float distance) { near_ = distance, make(); }
    float GetNearClipPlane() const { return near_; }

    /// Not Intel's: whether anything can hide.
    bool IsReady() const { return frame_.has_value(); }

    void ClearBuffer() {
        if (IsReady()) frame_->clear();
    }

    CullingResult RenderTriangles(const float *vertices, const unsigned *triangles, int count,
                                  const float *model_to_clip = nullptr, BackfaceWinding winding = BACKFACE_CW,
                                  ClipPlanes = CLIP_PLANE_ALL, const VertexLayout &layout = {16, 4, 12}) {
        if (count <= 0) return VIEW_CULLED;
        if (!IsReady()) return VISIBLE;
        const given mesh(room_, vertices, triangles, count, model_to_clip, layout);
        const std::size_t found = set_up(room_, mesh, winding);
        frame_->draw_pieces(0, frame_->row_count(), room_.pieces.data(), found);
        for (std::size_t k = 0; k < found; k++) {
            if (is_on_screen(room_.pieces[k])) return VISIBLE;
        }
        // what isn't drawn may still be there: it may face away, or be cut off
        return frame_->test_mesh(mesh.matrix, mesh.view) == maskcull::verdict::outside ? VIEW_CULLED : VISIBLE;
    }

    /// From -1 to 1 along x and upwards along y, at distance w.
    CullingResult TestRect(float xmin, float ymin, float xmax, float ymax, float w) const {
        if (xmax < -1 || xmin > 1 || ymax < -1 || ymin > 1) return VIEW_CULLED;
        const maskcull::clip_point corners[2] = {{below(xmin * w), below(ymin * w), w},
                                                 {above(xmax * w), above(ymax * w), w}};
        return IsReady() && frame_->is_hidden(corners, 2) ? OCCLUDED : VISIBLE;
    }

    CullingResult TestTriangles(const float *vertices, const unsigned *triangles, int count,
                                const float *model_to_clip = nullptr, BackfaceWinding = BACKFACE_CW,
                                ClipPlanes = CLIP_PLANE_ALL, const VertexLayout &layout = {16, 4, 12}) const {
        if (count <= 0) return VIEW_CULLED;
        if (!IsReady()) return VISIBLE;
        const given mesh(own_room(), vertices, triangles, count, model_to_clip, layout);
        return result_of(frame_->test_mesh(mesh.matrix, mesh.view));
    }

    /// Whole tiles; the last bin of a row or a column has the rest too.
    void ComputeBinWidthHeight(unsigned columns, unsigned rows, unsigned &width, unsigned &height) const {
        width = std::max(width_ / std::max(columns, 1u) / 32 * 32, 32u);
        height = std::max(height_ / std::max(rows, 1u) / 8 * 8, 8u);
    }

    /// What finds a list full isn't drawn.
    void BinTriangles(const float *vertices, const unsigned *triangles, int count, TriList *lists, unsigned columns,
                      unsigned rows, const float *model_to_clip = nullptr, BackfaceWinding winding = BACKFACE_CW,
                      ClipPlanes = CLIP_PLANE_ALL, const VertexLayout &layout = {16, 4, 12}) const {
        if (!IsReady() || count <= 0 || columns == 0 || rows == 0) return;
        room &r = own_room();
        const std::size_t found = set_up(r, {r, vertices, triangles, count, model_to_clip, layout}, winding);
        unsigned width, height;
        ComputeBinWidthHeight(columns, rows, width, height);
        for (std::size_t k = 0; k < found; k++) {
            std::uint32_t first, end; // rows of tiles
            maskcull_piece_rows(&frame_->setup(), &r.pieces[k], &first, &end);
            if (first >= end) continue;
            const unsigned last = std::min((end - 1) / (height / 8), rows - 1);
            for (unsigned row = std::min(first / (height / 8), rows - 1); row <= last; row++) {
                add(lists[std::size_t{row} * columns], r.pieces[k]);
            }
        }
    }

    /// Onto the rows of tiles that the rectangle reaches.
    void RenderTrilist(const TriList &list, const ScissorRect *scissor) {
        if (!IsReady() || scissor == nullptr) return;
        const auto first = static_cast<std::uint32_t>(std::max(scissor->mMinY, 0) / 8);
        const std::uint32_t past = static_cast<std::uint32_t>(std::max(scissor->mMaxY, 0)) + 7;
        const std::uint32_t end = std::min(past / 8, frame_->row_count());
        maskcull_piece some[64];
        for (std::size_t k = 0; k < list.mTriIdx && first < end; k += 64) {
            const std::size_t number = std::min<std::size_t>(64, list.mTriIdx - k);
            std::memcpy(some, list.mPtr + 9 * k, number * sizeof some[0]);
            frame_->draw_pieces(first, end - first, some, number);
        }
    }

    /// 1 / w as it is at least at each pixel, or -1 where nothing is known. Rows run downwards, or upwards if flipped.
    void ComputePixelDepthBuffer(float *depths, bool flip_y) const {
        for (std::uint32_t y = 0; y < height_; y++) {
            float *row = depths + std::size_t{flip_y ? height_ - 1 - y : y} * width_;
            for (std::uint32_t x = 0; x < width_; x++) row[x] = depth_at(x, y);
        }
    }

    /// (x, y, z, 1) through a matrix, column by column, to x, y, z, w.
    static void TransformVertices(const float *matrix, const float *vertices, float *out, unsigned count,
                                  const VertexLayout &layout = {12, 4, 8}) {
        const float *m = matrix;
        for (unsigned k = 0; k < count; k++) {
            float v[3];
            take(v, vertices, k, layout);
            for (int i = 0; i < 4; i++) *out++ = m[i] * v[0] + m[4 + i] * v[1] + (m[8 + i] * v[2] + m[12 + i]);
        }
    }

private:
    struct room {
        std::vector<float> places;
        maskcull::occluders made;
        std::vector<maskcull_piece> pieces;
    };

    // The next float: so that what a product loses only widens a rectangle.
    static float below(float at) { return std::nextafter(at, -std::numeric_limits<float>::max()); }
    static float above(float at) { return std::nextafter(at, std::numeric_limits<float>::max()); }

    static void take(float (&v)[3], const float *vertices, std::size_t k, const VertexLayout &layout) {
        const auto stride = static_cast<std::size_t>(layout.mStride);
        const auto *at = reinterpret_cast<const unsigned char *>(vertices) + k * stride;
        std::memcpy(&v[0], at, 4), std::memcpy(&v[1], at + layout.mOffsetY, 4);
        std::memcpy(&v[2], at + layout.mOffsetZ, 4);
    }

    // A mesh as maskcull.hpp takes it: with a matrix for x, y, z, or with one that takes x, y, w as they are.
    struct given {
        const float *matrix;
        maskcull::mesh_view view;

        given(room &r, const float *vertices, const unsigned *triangles, int count, const float *to_clip,
              const VertexLayout &layout)
            : matrix(to_clip == nullptr ? as_they_are() : to_clip),
              view(vertices, static_cast<std::size_t>(layout.mStride), 0, triangles,
                   3 * static_cast<std::size_t>(count)) {
            for (std::size_t k = 0; k < view.index_count; k++) {
                view.vertex_count = std::max<std::size_t>(view.vertex_count, std::size_t{triangles[k]} + 1);
            }
            if (layout.mOffsetY == 4 && layout.mOffsetZ == 8) return;
            r.places.resize(3 * view.vertex_count);
            for (std::size_t k = 0; k < view.vertex_count; k++) {
                float v[3];
                take(v, vertices, k, layout);
                std::memcpy(&r.places[3 * k], v, sizeof v);
            }
            view.positions = r.places.data(), view.stride = 3 * sizeof(float);
        }

        static const float *as_they_are() {
            static const float matrix[16] = {1, 0, 0, 0, 0, 1, 0, 0, 0, 0, 0, 1, 0, 0, 0, 0};
            return matrix;
        }
    };

    // For calls that threads may make side by side.
    static room &own_room() {
        static thread_local room of_thread;
        return of_thread;
    }

    void make() { frame_ = maskcull::frame::make(width_, height_, near_); }

    // Pieces of a mesh at the head of the room: how many.
    std::size_t set_up(room &r, const given &mesh, BackfaceWinding winding) const {
        frame_->prepare_into(r.made, mesh.matrix, mesh.view);
        const std::size_t count = r.made.triangles.size();
        std::size_t found = 0;
        r.pieces.resize(2 * count);
        const std::uint32_t status = frame_->set_up(r.made, 0, count, r.pieces.data(), 2 * count, found,
                                                    static_cast<maskcull_winding>(winding));
        return status == MASKCULL_DONE ? found : 0;
    }

    static void add(TriList &list, const maskcull_piece &piece) {
        if (list.mTriIdx >= list.mNumTriangles) return;
        std::memcpy(list.mPtr + 9 * std::size_t{list.mTriIdx++}, &piece, sizeof piece);
    }

    float depth_at(std::uint32_t x, std::uint32_t y) const {
        if (!IsReady()) return -1;
        const std::vector<maskcull_tile> &tiles = frame_->tiles();
        const std::uint32_t columns = (frame_->setup().width + 31) / 32;
        const maskcull_subtile_state s =
            maskcull_subtile(tiles.data(), tiles.size(), y / 8 * columns + x / 32, y % 8 / 4 * 4 + x % 32 / 8);
        const std::uint32_t held = (s.mask >> (y % 4 * 8 + x % 8) & 1) != 0 ? s.working : s.reference;
        // 16777215 is as near as 8/7 of the near distance
        return held == 0 ? -1 : static_cast<float>(held / (16777215.0 * 8 / 7 * static_cast<double>(near_)));
    }

    bool is_on_screen(const maskcull_piece &p) const {
        const auto [left, right] = std::minmax({p.x[0], p.x[1], p.x[2]});
        const auto [upper, lower] = std::minmax({p.y[0], p.y[1], p.y[2]});
        return right > 0 && lower > 0 && left < 16 * static_cast<int>(width_) && upper < 16 * static_cast<int>(height_);
    }

    static CullingResult result_of(maskcull::verdict found) {
        if (found == maskcull::verdict::occluded) return OCCLUDED;
        return found == maskcull::verdict::outside ? VIEW_CULLED : VISIBLE;
    }

    static_assert(sizeof(maskcull_piece) == 9 * sizeof(float), "a list has nine floats for a triangle");

    unsigned width_ = 0, height_ = 0;
    float near_ = 0;
    std::optional<maskcull::frame> frame_;
    room room_;
};

#endif
