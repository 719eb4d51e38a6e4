// Tiles of eight subtiles, each with a reference depth, a working depth and a mask.
#pragma once
#include "bounds.hpp"
#include "coverage.hpp"

namespace rivals {

struct Tile {
    Eight reference, working, mask;
};

class Tiles {
public:
    explicit Tiles(const Scene& scene)
        : width_(scene.width), height_(scene.height), columns_((width_ + TILE_WIDTH - 1) / TILE_WIDTH),
          rows_((height_ + TILE_HEIGHT - 1) / TILE_HEIGHT), tiles_(std::size_t(columns_) * std::size_t(rows_)),
          least_(tiles_.size()) {}

    void clear() {
        std::fill(tiles_.begin(), tiles_.end(), Tile{all(0), all(0), all(0)});
        std::fill(least_.begin(), least_.end(), 0);
        if (width_ % TILE_WIDTH != 0)
            for (int row = 0; row < rows_; ++row) put_beside(columns_ - 1, row);
        if (height_ % TILE_HEIGHT != 0)
            for (int column = 0; column < columns_; ++column) put_beside(column, rows_ - 1);
    }

    void draw(const Piece& piece) {
        const Rect rect = samples_around(piece, width_, height_);
        if (rect.is_empty()) return;
        const std::int32_t greatest = greatest_nearness(piece);
        const int right = (rect.x1 - 1) / TILE_WIDTH, bottom = (rect.y1 - 1) / TILE_HEIGHT;
        for (int row = rect.y0 / TILE_HEIGHT; row <= bottom; ++row)
            for (int column = rect.x0 / TILE_WIDTH; column <= right; ++column)
                if (least_[place(column, row)] < greatest) return draw_from(piece, rect, row, greatest);
    }

    // Whether each sample of a rectangle on the screen hides a nearness.
    bool hides(const Rect& rect, std::int32_t nearness) const {
        for (int row = rect.y0 / TILE_HEIGHT; TILE_HEIGHT * row < rect.y1; ++row)
            for (int column = rect.x0 / TILE_WIDTH; TILE_WIDTH * column < rect.x1; ++column)
                if (least_[place(column, row)] <= nearness && !tile_hides(rect, column, row, nearness)) return false;
        return true;
    }

    // Whether each sample that a piece of an object touches hides its high bound; tells whether it touches one.
    bool hides(const Piece& piece, bool& is_touched) const {
        const Rect rect = samples_around(piece, width_, height_);
        if (rect.is_empty()) return true;
        const Plane plane(piece);
        bool hidden = true;
        for (int row = rect.y0 / 4; 4 * row < rect.y1; ++row)
            for (int column = rect.x0 / 8; 8 * column < rect.x1; ++column) {
                const std::uint32_t touched = touched_in(piece, column, row);
                is_touched = is_touched || touched != 0;
                hidden = hidden && (seen_in(column, row, high_bound(piece, plane, column, row)) & touched) == 0;
            }
        return hidden;
    }

private:
    static constexpr std::int32_t BESIDE = 1 << 30;
    // A piece that reaches no more subtiles is drawn subtile by subtile.
    static constexpr int FEW = 8;

    std::size_t place(int column, int row) const { return std::size_t(row * columns_ + column); }

    // The subtiles of a tile that are beside the screen take no piece.
    void put_beside(int column, int row) {
        const Eight on_screen = (Eight{0, 8, 16, 24, 0, 8, 16, 24} + TILE_WIDTH * column < all(width_)) &
                                (Eight{0, 0, 0, 0, 4, 4, 4, 4} + TILE_HEIGHT * row < all(height_));
        tiles_[place(column, row)].reference = ~on_screen & all(BESIDE);
    }

    static bool is_small(const Piece& piece, const Rect& rect) {
        const Point &a = piece.points[0], &b = piece.points[1], &c = piece.points[2];
        const int across = ((rect.x1 - 1) >> 3) - (rect.x0 >> 3) + 1, down = ((rect.y1 - 1) >> 2) - (rect.y0 >> 2) + 1;
        return across * down <= FEW && std::max({a.x, b.x, c.x}) - std::min({a.x, b.x, c.x}) < 1024 &&
               std::max({a.y, b.y, c.y}) - std::min({a.y, b.y, c.y}) < 1024;
    }

    void draw_from(const Piece& piece, const Rect& rect, int first_row, std::int32_t greatest) {
        if (is_small(piece, rect)) return draw_small(piece, rect, greatest);
        const Inside inside(piece, rect);
        const Bounds bounds(piece);
        for (int row = first_row; TILE_HEIGHT * row < rect.y1; ++row) draw_row(inside, bounds, rect, row, greatest);
    }

    void draw_row(const Inside& inside, const Bounds& bounds, const Rect& rect, int row, std::int32_t greatest) {
        int column = rect.x0 / TILE_WIDTH, end = (rect.x1 - 1) / TILE_WIDTH + 1;
        const std::int32_t* least = &least_[place(0, row)];
        while (column < end && least[column] >= greatest) ++column;
        if (column == end) return;
        const Spans spans = inside.spans(row);
        if (end - column > 2) {
            column = std::max(column, least_of(spans.first) / TILE_WIDTH);
            end = std::min(end, (TILE_WIDTH - 1 - least_of(-spans.end)) / TILE_WIDTH);
        }
        for (; column < end; ++column)
            if (least[column] < greatest) merge(column, row, bounds.of(column, row), masks_of(spans, column));
    }

    // Each subtile takes the step of its bound at the samples of its mask.
    void merge(int column, int row, Eight bound, Eight covered) {
        const std::size_t number = place(column, row);
        Tile& tile = tiles_[number];
        const Eight alive = (bound > tile.reference) & (covered != all(0));
        const Eight drop = tile.working + tile.working < bound + tile.reference;
        const Eight mask = (~drop & tile.mask) | covered;
        const Eight layer = drop ? bound : lesser(tile.working, bound);
        const Eight full = mask == all(-1), closed = full & alive;
        tile.working = alive ? ~full & layer : tile.working;
        tile.mask = alive ? ~full & mask : tile.mask;
        if (!any(closed)) return;
        tile.reference = closed ? layer : tile.reference;
        least_[number] = least_of(tile.reference);
    }

    void draw_small(const Piece& piece, const Rect& rect, std::int32_t greatest) {
        const SmallEdges edges(piece);
        const Plane plane(piece);
        const std::int32_t least = least_nearness(piece);
        const std::int64_t level = std::int64_t(plane.at(plane.least_x(), plane.least_y())) - least * plane.area;
        for (int row = rect.y0 >> 2; row <= (rect.y1 - 1) >> 2; ++row)
            for (int column = rect.x0 >> 3; column <= (rect.x1 - 1) >> 3; ++column) {
                const std::size_t number = place(column >> 2, row >> 1);
                const int k = (column & 3) + 4 * (row & 1);
                Tile& tile = tiles_[number];
                if (tile.reference[k] >= greatest) continue;
                const std::uint32_t covered = edges.mask(8 * column, 4 * row);
                if (covered == 0) continue;
                // what the plane is above the least nearness, in parts of the area
                const std::int64_t above = level + plane.across * (128 * column) + plane.down * (64 * row);
                const std::int32_t bound =
                    above < plane.area ? least : least + std::int32_t(short_floor(above, plane.area));
                if (bound > tile.reference[k]) step(tile, k, number, bound, covered);
            }
    }

    void step(Tile& tile, int k, std::size_t number, std::int32_t bound, std::uint32_t covered) {
        const bool drop = 2 * tile.working[k] < bound + tile.reference[k];
        const std::uint32_t mask = (drop ? 0 : std::uint32_t(tile.mask[k])) | covered;
        const std::int32_t layer = drop ? bound : std::min(tile.working[k], bound);
        const bool full = mask == ~0u;
        tile.working[k] = full ? 0 : layer;
        tile.mask[k] = full ? 0 : std::int32_t(mask);
        if (!full) return;
        tile.reference[k] = layer;
        least_[number] = least_of(tile.reference);
    }

    bool tile_hides(const Rect& rect, int column, int row, std::int32_t nearness) const {
        const Tile& tile = tiles_[place(column, row)];
        const Eight rows = counting() + TILE_HEIGHT * row, in = (rows >= all(rect.y0)) & (rows < all(rect.y1));
        const Eight samples = masks_of({all(rect.x0), in ? all(rect.x1) : all(0)}, column);
        const Eight open = tile.reference <= all(nearness), open_layer = tile.working <= all(nearness);
        return !any(((~tile.mask & open) | (tile.mask & open_layer)) & samples);
    }

    // The samples of a subtile that don't hide a nearness.
    std::uint32_t seen_in(int column, int row, std::int32_t nearness) const {
        const Tile& tile = tiles_[place(column >> 2, row >> 1)];
        const int k = (column & 3) + 4 * (row & 1);
        const std::uint32_t mask = std::uint32_t(tile.mask[k]);
        return (tile.reference[k] <= nearness ? ~mask : 0) | (tile.working[k] <= nearness ? mask : 0);
    }

    static std::uint32_t touched_in(const Piece& piece, int column, int row) {
        std::uint32_t mask = ~0u;
        for (int k = 0; k < 3; ++k) {
            const Edge edge(piece.points[k], piece.points[(k + 1) % 3], Side::object);
            for (int sample = 0; sample < 32; ++sample)
                if (edge.at(8 * column + (sample & 7), 4 * row + (sample >> 3)) < 0) mask &= ~(1u << sample);
        }
        return mask;
    }

    int width_, height_, columns_, rows_;
    std::vector<Tile> tiles_;
    // For each tile the least of its references.
    std::vector<std::int32_t> least_;
};

}  // namespace rivals
