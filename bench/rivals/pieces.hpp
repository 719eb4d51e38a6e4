// From a scene's whole numbers to pieces: triangles on the screen, in sixteenths of a pixel, clockwise.
#pragma once
#include <algorithm>

#include "scene.hpp"

namespace rivals {

using Wide = __int128;
constexpr std::int64_t HELD_TOP = 16777215;
constexpr std::int64_t GUARD = 16384;

enum class Side { occluder, object };

struct Point {
    std::int32_t x, y, nearness;
};

struct Piece {
    Point points[3];
    std::int64_t area;
};

// What a camera makes of a vertex.
struct Clip {
    std::int64_t x, y, w;
};

enum class State : std::uint8_t { placed, behind, past_guard };

struct ScreenVertex {
    Point point;
    State state;
};

// Pixels from the first corner to before the second.
struct Rect {
    int x0, y0, x1, y1;
    bool is_empty() const { return x0 >= x1 || y0 >= y1; }
};

// Pieces of one triangle: at most two.
struct Pieces {
    Piece all[2];
    int count = 0;
};

template <class Number>
Number floor_of(Number numerator, Number denominator) {
    const Number quotient = numerator / denominator;
    return quotient * denominator > numerator ? quotient - 1 : quotient;
}

// The same, by 32 bits where they do: older processors divide these in a fraction of the time.
inline std::int64_t short_floor(std::int64_t numerator, std::int64_t denominator) {
    if ((std::uint64_t(numerator) | std::uint64_t(denominator)) >> 32 == 0)
        return std::uint32_t(numerator) / std::uint32_t(denominator);
    return floor_of(numerator, denominator);
}

// What snapping and clipping need of a scene.
class Snapping {
public:
    explicit Snapping(const Scene& scene)
        : width_(scene.width), height_(scene.height), near_(scene.near_distance),
          scaled_(near_ * (scene.wide ? HELD_TOP : 65535)) {}

    static Clip clip(const Camera& c, const Vertex& v) {
        const auto row = [&](std::size_t k) {
            const std::int64_t sum = std::int64_t(c[k]) * v[0] + std::int64_t(c[k + 1]) * v[1] +
                                     std::int64_t(c[k + 2]) * v[2];
            return (sum >> 16) + c[k + 3];
        };
        return {row(0), row(4), row(8)};
    }

    bool is_past_guard(const Clip& clip) const {
        const std::int64_t reach = GUARD * near_;
        const auto is_far = [&](std::int64_t number) { return number < -reach || number > reach; };
        return is_far(clip.x) || is_far(clip.y) || is_far(clip.w);
    }
    bool is_behind(const Clip& clip) const { return clip.w < near_; }

    State state(const Clip& clip) const {
        if (is_past_guard(clip)) return State::past_guard;
        return is_behind(clip) ? State::behind : State::placed;
    }

    // Where a vertex that is placed stands.
    std::int32_t x_of(const Clip& clip) const {
        return std::int32_t(short_floor(16 * width_ * (clip.x + clip.w) + clip.w, 2 * clip.w));
    }
    std::int32_t y_of(const Clip& clip) const {
        return std::int32_t(short_floor(16 * height_ * (clip.w - clip.y) + clip.w, 2 * clip.w));
    }
    Point snap(const Clip& clip, Side side) const { return {x_of(clip), y_of(clip), nearness(clip.w, side)}; }

    std::int32_t nearness(std::int64_t w, Side side) const {
        return std::int32_t(short_floor(side == Side::object ? scaled_ + w - 1 : scaled_, w));
    }

    ScreenVertex place(const Clip& clip) const {
        const State found = state(clip);
        return {found == State::placed ? snap(clip, Side::occluder) : Point{}, found};
    }

    // The snapped near part of a triangle: up to four points. None of its vertices is past the guard.
    int near_part(const Clip clips[3], Side side, Point out[4]) const {
        int size = 0;
        for (int k = 0; k < 3; ++k) {
            const Clip &from = clips[k], &to = clips[(k + 1) % 3];
            if (!is_behind(from)) out[size++] = snap(from, side);
            if (is_behind(from) != is_behind(to))
                out[size++] = is_behind(to) ? cut(from, to, side) : cut(to, from, side);
        }
        return size;
    }

    // The pieces of a triangle by its clip vertices.
    Pieces pieces_of(const Clip clips[3], Side side, Winding winding) const {
        Pieces pieces;
        for (int k = 0; k < 3; ++k)
            if (is_past_guard(clips[k])) return pieces;
        Point points[4];
        const int size = near_part(clips, side, points);
        for (int k = 2; k < size; ++k)
            if (set_up(points[0], points[k - 1], points[k], winding, pieces.all[pieces.count])) ++pieces.count;
        return pieces;
    }

    // Whether three points make a piece.
    static bool set_up(const Point& a, const Point& b, const Point& c, Winding winding, Piece& out) {
        const std::int64_t area = (std::int64_t(b.x) - a.x) * (std::int64_t(c.y) - a.y) -
                                  (std::int64_t(b.y) - a.y) * (std::int64_t(c.x) - a.x);
        const bool clockwise = area > 0;
        if (area == 0 || (winding == DROPS_CLOCKWISE && clockwise) ||
            (winding == DROPS_COUNTERCLOCKWISE && !clockwise))
            return false;
        out = {{a, clockwise ? b : c, clockwise ? c : b}, clockwise ? area : -area};
        return true;
    }

private:
    // Where an edge from inside to outside passes the near plane.
    Point cut(const Clip& in, const Clip& out, Side side) const {
        const Wide to_out = in.w - near_, to_in = near_ - out.w, scale = in.w - out.w;
        const Wide x = to_in * in.x + to_out * out.x, y = to_in * in.y + to_out * out.y;
        const Wide w = to_in * in.w + to_out * out.w, near_top = scaled_ * scale;
        return {std::int32_t(floor_of<Wide>(16 * width_ * (x + w) + w, 2 * w)),
                std::int32_t(floor_of<Wide>(16 * height_ * (w - y) + w, 2 * w)),
                std::int32_t((side == Side::object ? near_top + w - 1 : near_top) / w)};
    }

    std::int64_t width_, height_, near_, scaled_;
};

// An edge of a piece: its value at the sample of column c and row r, in sixteenths rounded down, is
// level + down r - across c, and the sample is inside where that isn't negative.
struct Edge {
    std::int64_t level, down, across;

    Edge() = default;
    Edge(const Point& a, const Point& b, Side side) : down(std::int64_t(b.x) - a.x), across(std::int64_t(b.y) - a.y) {
        const bool is_top_or_left = across < 0 || (across == 0 && down > 0);
        const int bias = side == Side::object || is_top_or_left ? 0 : -1;
        level = (down * (8 - std::int64_t(a.y)) - across * (8 - std::int64_t(a.x)) + bias) >> 4;
    }

    std::int64_t at(int column, int row) const { return level + down * row - across * column; }
};

// Depth over a piece: at (x, y) in sixteenths it is (across x + down y + level) / area.
struct Plane {
    std::int64_t across, down, area;
    Wide level;

    explicit Plane(const Piece& piece) : area(piece.area) {
        const Point &a = piece.points[0], &b = piece.points[1], &c = piece.points[2];
        const std::int64_t bx = std::int64_t(b.x) - a.x, by = std::int64_t(b.y) - a.y, bz = b.nearness - a.nearness;
        const std::int64_t cx = std::int64_t(c.x) - a.x, cy = std::int64_t(c.y) - a.y, cz = c.nearness - a.nearness;
        across = bz * cy - cz * by;
        down = cz * bx - bz * cx;
        level = Wide(a.nearness) * area - Wide(across) * a.x - Wide(down) * a.y;
    }

    Wide at(int x, int y) const { return Wide(across) * x + Wide(down) * y + level; }
    // Where in a subtile the least is, in sixteenths from its left upper corner.
    int least_x() const { return across < 0 ? 120 : 8; }
    int least_y() const { return down < 0 ? 56 : 8; }
};

inline std::int32_t least_nearness(const Piece& p) {
    return std::min({p.points[0].nearness, p.points[1].nearness, p.points[2].nearness});
}
inline std::int32_t greatest_nearness(const Piece& p) {
    return std::max({p.points[0].nearness, p.points[1].nearness, p.points[2].nearness});
}

// The pixels of a screen whose samples stand in the box around a piece.
inline Rect samples_around(const Piece& piece, int width, int height) {
    const Point &a = piece.points[0], &b = piece.points[1], &c = piece.points[2];
    return {std::max((std::min({a.x, b.x, c.x}) + 7) >> 4, 0), std::max((std::min({a.y, b.y, c.y}) + 7) >> 4, 0),
            std::min((std::max({a.x, b.x, c.x}) + 8) >> 4, width),
            std::min((std::max({a.y, b.y, c.y}) + 8) >> 4, height)};
}

// The pixels that points reach, on the screen.
inline Rect pixels_around(const Point* points, int count, int width, int height) {
    Point low = points[0], high = points[0];
    for (int k = 1; k < count; ++k) {
        low = {std::min(low.x, points[k].x), std::min(low.y, points[k].y), 0};
        high = {std::max(high.x, points[k].x), std::max(high.y, points[k].y), 0};
    }
    return {std::max(low.x >> 4, 0), std::max(low.y >> 4, 0), std::min((high.x >> 4) + 1, width),
            std::min((high.y >> 4) + 1, height)};
}

}  // namespace rivals
