// The low bounds of a piece over the subtiles of a tile.
#pragma once
#include "lanes.hpp"
#include "pieces.hpp"

namespace rivals {

// A plane by one quotient a tile where its numbers are usual, otherwise by one a subtile.
class Bounds {
public:
    explicit Bounds(const Piece& piece) : plane_(piece), least_(least_nearness(piece)), divisor_(plane_.area) {
        const Wide first = plane_.at(plane_.least_x(), plane_.least_y());
        const std::int64_t steep = std::max(std::abs(plane_.across), std::abs(plane_.down));
        fits_ = steep <= std::int64_t(1) << 46 && first <= Wide(1) << 61 && first >= -(Wide(1) << 61);
        in_lanes_ = fits_ && plane_.area < std::int64_t(1) << 31 && steep <= plane_.area << 19;
        first_ = fits_ ? std::int64_t(first) : 0;
        if (in_lanes_) put_lanes();
    }

    // The low bounds over a tile's subtiles.
    Eight of(int column, int row) const {
        if (!in_lanes_) return one_by_one(column, row);
        const std::int64_t value = first_ + plane_.across * (16 * TILE_WIDTH * column) +
                                   plane_.down * (16 * TILE_HEIGHT * row);
        std::int64_t rest;
        const std::int64_t whole = std::clamp<std::int64_t>(divisor_.floor(value, rest), -LIMIT, LIMIT);
        const Eight carry = rests_ >= all(std::int32_t(plane_.area - rest));
        return greater(wholes_ + all(std::int32_t(whole)) - carry, all(least_));
    }

private:
    // Quotients beyond are far from any nearness.
    static constexpr std::int64_t LIMIT = 1 << 30;

    Eight one_by_one(int column, int row) const {
        Eight bounds = {};
        for (int k = 0; k < 8; ++k) {
            const int x = 16 * (TILE_WIDTH * column + 8 * (k & 3)) + plane_.least_x();
            const int y = 16 * (TILE_HEIGHT * row + 4 * (k >> 2)) + plane_.least_y();
            const Wide value = plane_.at(x, y);
            const Wide whole = fits_ ? divisor_.floor(std::int64_t(value)) : floor_of<Wide>(value, plane_.area);
            bounds[k] = std::int32_t(std::clamp<Wide>(whole, least_, HELD_TOP));
        }
        return bounds;
    }

    // What the plane rises by from a tile's first subtile to each of them, as whole numbers and rests.
    void put_lanes() {
        std::int64_t rest, rest_down;
        const std::int32_t whole = std::int32_t(divisor_.floor(plane_.across * 128, rest));
        const std::int32_t whole_down = std::int32_t(divisor_.floor(plane_.down * 64, rest_down));
        const std::int32_t area = std::int32_t(plane_.area);
        std::int32_t wholes[4] = {}, rests[4] = {};
        for (int k = 1; k < 4; ++k) {
            const std::int32_t left = rests[k - 1] - (area - std::int32_t(rest));
            rests[k] = left < 0 ? left + area : left;
            wholes[k] = wholes[k - 1] + whole + (left >= 0);
        }
        const Four upper = {wholes[0], wholes[1], wholes[2], wholes[3]};
        const Four upper_rests = {rests[0], rests[1], rests[2], rests[3]};
        const Four left = upper_rests - (area - std::int32_t(rest_down));
        const Four lower = upper + whole_down - (left >= 0);
        const Four lower_rests = left < 0 ? left + area : left;
        wholes_ = __builtin_shufflevector(upper, lower, 0, 1, 2, 3, 4, 5, 6, 7);
        rests_ = __builtin_shufflevector(upper_rests, lower_rests, 0, 1, 2, 3, 4, 5, 6, 7);
    }

    Plane plane_;
    std::int32_t least_;
    Divisor divisor_;
    bool fits_, in_lanes_;
    std::int64_t first_;
    Eight wholes_, rests_;
};

// The high bound of an object's piece over a subtile.
inline std::int32_t high_bound(const Piece& piece, const Plane& plane, int column, int row) {
    const int x = 128 * column + (plane.across > 0 ? 120 : 8), y = 64 * row + (plane.down > 0 ? 56 : 8);
    const Wide ceiling = -floor_of<Wide>(-plane.at(x, y), plane.area);
    return std::int32_t(std::clamp<Wide>(std::min<Wide>(greatest_nearness(piece), ceiling), 0, HELD_TOP));
}

}  // namespace rivals
