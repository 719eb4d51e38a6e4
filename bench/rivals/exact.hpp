// An exact z-buffer: at each sample the depth of the nearest piece that covers it, as a fraction.
#pragma once
#include "pieces.hpp"

namespace rivals {

// A whole number and a part of one: rest / area. Nothing is drawn where the area is 0.
struct Depth {
    std::int64_t whole = 0, rest = 0, area = 0;
};

inline bool is_below(const Depth& left, const Depth& right) {
    if (right.area == 0) return false;
    if (left.area == 0 || left.whole != right.whole) return left.area == 0 || left.whole < right.whole;
    return Wide(left.rest) * right.area < Wide(right.rest) * left.area;
}

class ExactDepths {
public:
    explicit ExactDepths(const Scene& scene)
        : width_(scene.width), height_(scene.height), depths_(std::size_t(width_) * height_) {}

    void clear() { std::fill(depths_.begin(), depths_.end(), Depth{}); }

    void draw(const Piece& piece) {
        each_inside(piece, Side::occluder, [&](std::size_t place, const Depth& depth) {
            if (is_below(depths_[place], depth)) depths_[place] = depth;
        });
    }

    // Whether each sample of a rectangle has a depth above a nearness.
    bool hides(const Rect& rect, std::int32_t nearness) const {
        for (int y = rect.y0; y < rect.y1; ++y)
            for (int x = rect.x0; x < rect.x1; ++x)
                if (!is_below({nearness, 0, 1}, depths_[std::size_t(y) * width_ + x])) return false;
        return true;
    }

    // Whether each sample that a piece of an object touches has a depth above the piece's; tells whether one is there.
    bool hides(const Piece& piece, bool& is_touched) const {
        bool hidden = true;
        each_inside(piece, Side::object, [&](std::size_t place, const Depth& depth) {
            is_touched = true;
            hidden = hidden && is_below(depth, depths_[place]);
        });
        return hidden;
    }

private:
    template <class Body>
    void each_inside(const Piece& piece, Side side, Body body) const {
        const Rect rect = samples_around(piece, width_, height_);
        const Plane plane(piece);
        Edge edges[3];
        for (int k = 0; k < 3; ++k) edges[k] = Edge(piece.points[k], piece.points[(k + 1) % 3], side);
        for (int y = rect.y0; y < rect.y1; ++y)
            for (int x = rect.x0; x < rect.x1; ++x) {
                if (edges[0].at(x, y) < 0 || edges[1].at(x, y) < 0 || edges[2].at(x, y) < 0) continue;
                const Wide value = plane.at(16 * x + 8, 16 * y + 8);
                const std::int64_t whole = std::int64_t(floor_of<Wide>(value, plane.area));
                body(std::size_t(y) * width_ + x,
                     Depth{whole, std::int64_t(value - Wide(whole) * plane.area), plane.area});
            }
    }

    int width_, height_;
    std::vector<Depth> depths_;
};

}  // namespace rivals
