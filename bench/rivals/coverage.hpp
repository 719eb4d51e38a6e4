// Which samples a piece covers: as spans of columns in rows of tiles, or as a mask of one subtile.
#pragma once
#include "lanes.hpp"
#include "pieces.hpp"

namespace rivals {

// Columns in eight rows of samples, from the first to before the end.
struct Spans {
    Eight first, end;
};

// Bits from a column on, and those before it.
struct BitTables {
    std::uint32_t from[33], before[33];
    constexpr BitTables() : from(), before() {
        for (int k = 0; k < 33; ++k) {
            from[k] = k == 32 ? 0 : ~0u << k;
            before[k] = ~from[k];
        }
    }
};
inline constexpr BitTables BITS;

// The masks of a tile's subtiles by the spans of its row.
inline Eight masks_of(const Spans& spans, int column) {
    const Eight none = all(0), most = all(TILE_WIDTH), left = all(TILE_WIDTH * column);
    const Eight first = lesser(greater(spans.first - left, none), most);
    const Eight end = lesser(greater(spans.end - left, none), most);
    const auto row = [&](int k) { return std::int32_t(BITS.from[first[k]] & BITS.before[end[k]]); };
    // from four rows of 32 samples to four subtiles of four rows each
    const auto turned = [](Four rows) {
        const Octets bytes = Octets(rows);
        return Four(__builtin_shufflevector(bytes, bytes, 0, 4, 8, 12, 1, 5, 9, 13, 2, 6, 10, 14, 3, 7, 11, 15));
    };
    const Four above = turned(Four{row(0), row(1), row(2), row(3)});
    const Four below = turned(Four{row(4), row(5), row(6), row(7)});
    return __builtin_shufflevector(above, below, 0, 1, 2, 3, 4, 5, 6, 7);
}

// Where an edge crosses rows of samples: the inner samples are those from a column on, or those before it.
class Crossing {
public:
    Crossing() = default;

    // Of an edge that isn't level.
    Crossing(const Edge& edge, int first_row) : first_row_(first_row) {
        is_left_ = edge.across < 0;
        number_ = is_left_ ? ~edge.at(0, first_row) : edge.at(0, first_row);
        step_ = is_left_ ? -edge.down : edge.down;
        width_ = is_left_ ? -edge.across : edge.across;
        is_near_ = std::abs(number_) < std::int64_t(1) << 30 && width_ < 1 << 20 &&
                   std::abs(step_) < std::int64_t(1) << 20 && std::abs(step_) <= width_ << 18;
        if (!is_near_) return;
        // a row's rounding loses one part at most: 2048 for all rows are added, which reach no other column
        const Divisor divisor(width_);
        column_ = divisor.floor(number_ * PARTS) + PARTS + 2048;
        slope_ = divisor.floor(step_ * PARTS);
    }

    bool is_left() const { return is_left_; }
    bool is_near() const { return is_near_; }

    // The columns of eight rows, the crossing being near.
    Eight columns(int row) const {
        const std::int64_t start = column_ + slope_ * (row - first_row_);
        const Longs two = Longs{} + 2 * slope_, a = {start, start + slope_}, b = a + two, c = b + two, d = c + two;
        const Four upper = __builtin_shufflevector(Four(a), Four(b), 1, 3, 5, 7);
        const Four lower = __builtin_shufflevector(Four(c), Four(d), 1, 3, 5, 7);
        return __builtin_shufflevector(upper, lower, 0, 1, 2, 3, 4, 5, 6, 7);
    }

    // The same of any crossing, cut to what a screen has.
    Eight far_columns(int row) const {
        const std::int64_t start = number_ + step_ * (row - first_row_);
        std::int64_t whole = floor_of(start, width_), rest = start - whole * width_;
        const std::int64_t whole_step = floor_of(step_, width_), rest_step = step_ - whole_step * width_;
        Eight columns;
        for (int k = 0; k < 8; ++k) {
            columns[k] = std::int32_t(std::clamp<std::int64_t>(whole + 1, -1, 4096));
            whole += whole_step;
            rest += rest_step;
            if (rest >= width_) ++whole, rest -= width_;
        }
        return columns;
    }

private:
    // Of a pixel.
    static constexpr std::int64_t PARTS = std::int64_t(1) << 32;

    bool is_left_ = false, is_near_ = true;
    int first_row_ = 0;
    std::int64_t number_ = 0, step_ = 0, width_ = 1, column_ = 0, slope_ = 0;
};

// The samples inside three edges, row by row of tiles.
class Inside {
public:
    Inside(const Piece& piece, const Rect& rect) : rect_(rect) {
        Edge edges[3];
        int level = 3, left = 0, right = 0;
        for (int k = 0; k < 3; ++k) {
            edges[k] = Edge(piece.points[k], piece.points[k == 2 ? 0 : k + 1], Side::occluder);
            level = edges[k].across == 0 ? k : level;
            left = edges[k].across < 0 ? k : left;
            right = edges[k].across > 0 ? k : right;
        }
        if (level < 3) cut_rows(edges[level]);
        const int third = level < 3 ? left : 3 - left - right;
        left_ = Crossing(edges[left], rect.y0);
        right_ = Crossing(edges[right], rect.y0);
        third_ = Crossing(edges[third], rect.y0);
        is_near_ = left_.is_near() && right_.is_near() && third_.is_near();
    }

    Spans spans(int tile_row) const {
        const int row = TILE_HEIGHT * tile_row;
        const Eight left = is_near_ ? left_.columns(row) : left_.far_columns(row);
        const Eight right = is_near_ ? right_.columns(row) : right_.far_columns(row);
        const Eight third = is_near_ ? third_.columns(row) : third_.far_columns(row);
        const Eight is_left = all(third_.is_left() ? -1 : 0), rows = counting() + row;
        const Eight low = all(rect_.x0), high = all(rect_.x1);
        const Eight first = greater(greater(left, low), is_left ? third : low);
        const Eight end = lesser(lesser(right, high), is_left ? high : third);
        const Eight in = (rows >= all(rect_.y0)) & (rows < all(rect_.y1));
        return {in ? lesser(first, high) : high, in ? greater(end, low) : low};
    }

private:
    // A level edge has the rows below it, or above it.
    void cut_rows(const Edge& edge) {
        if (edge.down > 0) {
            rect_.y0 = int(std::max<std::int64_t>(rect_.y0, -floor_of(edge.level, edge.down)));
        } else {
            rect_.y1 = int(std::min<std::int64_t>(rect_.y1, floor_of(edge.level, -edge.down) + 1));
        }
    }

    Rect rect_;
    Crossing left_, right_, third_;
    bool is_near_;
};

// The edges of a piece whose box has sides below 64 pixels, by values of 16 bits.
class SmallEdges {
public:
    explicit SmallEdges(const Piece& piece) {
        const Halves columns = {0, 1, 2, 3, 4, 5, 6, 7};
        for (int k = 0; k < 3; ++k) {
            const Point &a = piece.points[k], &b = piece.points[k == 2 ? 0 : k + 1];
            down_[k] = b.x - a.x;
            across_[k] = b.y - a.y;
            const int bias = across_[k] < 0 || (across_[k] == 0 && down_[k] > 0) ? 0 : -1;
            level_[k] = (down_[k] * (8 - a.y) - across_[k] * (8 - a.x) + bias) >> 4;
            moves_[k] = columns * std::int16_t(-across_[k]);
        }
    }

    // The samples inside, of the subtile whose first pixel this is.
    std::uint32_t mask(int x, int y) const {
        Halves row[4] = {};
        for (int k = 0; k < 3; ++k) {
            const int first = std::clamp(level_[k] + down_[k] * y - across_[k] * x, -LIMIT, LIMIT);
            Halves values = moves_[k] + std::int16_t(first);
            for (int r = 0; r < 4; ++r, values += std::int16_t(down_[k])) row[r] |= values;
        }
        const Halves low = {1, 2, 4, 8, 16, 32, 64, 128}, high = low << 8;
        const Halves upper = ((row[0] >= 0) & low) | ((row[1] >= 0) & high);
        const Halves lower = ((row[2] >= 0) & low) | ((row[3] >= 0) & high);
        const Halves joined = __builtin_shufflevector(upper, lower, 0, 8, 1, 9, 2, 10, 3, 11) |
                              __builtin_shufflevector(upper, lower, 4, 12, 5, 13, 6, 14, 7, 15);
        const Longs two = Longs(joined);
        const std::uint64_t words = std::uint64_t(two[0] | two[1]);
        return std::uint32_t(words | words >> 32);
    }

private:
    // A value clamped to this keeps its sign at each sample of the subtile.
    static constexpr int LIMIT = 1 << 14;

    int down_[3], across_[3], level_[3];
    Halves moves_[3];
};

}  // namespace rivals
