// Masked occlusion culling in floats with AVX2: two depths and a mask for each 8 by 4 pixels, eight such subtiles in a
// vector, eight triangles set up at once, eight boxes put through the camera at once. Greater is nearer: depth is the
// near distance over w. Nothing is snapped and nothing is exact.
#include <immintrin.h>

#include <limits>

#include "run.hpp"

namespace rivals {
namespace {

using Floats = __m256;
using Whole = __m256i;

constexpr float FAR_AWAY = std::numeric_limits<float>::max();
// Below this a triangle or an edge is flat.
constexpr float FLAT = 1e-6f;
// Of so many columns of tiles each is visited, without a look which of them a row's spans reach.
constexpr int FEW = 4;

Floats all(float number) { return _mm256_set1_ps(number); }
Whole all(int number) { return _mm256_set1_epi32(number); }
Whole bits(Floats lanes) { return _mm256_castps_si256(lanes); }
Floats floats(Whole lanes) { return _mm256_castsi256_ps(lanes); }
Floats counting() { return _mm256_setr_ps(0, 1, 2, 3, 4, 5, 6, 7); }
Floats clamp(Floats lanes, Floats low, Floats high) { return _mm256_min_ps(_mm256_max_ps(lanes, low), high); }
Floats select(Floats mask, Floats yes, Floats no) { return _mm256_blendv_ps(no, yes, mask); }
Floats less(Floats left, Floats right) { return _mm256_cmp_ps(left, right, _CMP_LT_OQ); }
Floats rounded_up(Floats lanes) { return _mm256_ceil_ps(lanes); }

float least_of(Floats lanes) {
    __m128 four = _mm_min_ps(_mm256_castps256_ps128(lanes), _mm256_extractf128_ps(lanes, 1));
    four = _mm_min_ps(four, _mm_movehl_ps(four, four));
    return _mm_cvtss_f32(_mm_min_ss(four, _mm_shuffle_ps(four, four, 1)));
}

// The least of eight whole numbers from 0 to 65535.
int least_of(Whole lanes) {
    const __m128i eight = _mm_packus_epi32(_mm256_castsi256_si128(lanes), _mm256_extracti128_si256(lanes, 1));
    return _mm_extract_epi16(_mm_minpos_epu16(eight), 0);
}

// Eight subtiles: those of the upper row from the left, then those of the lower row.
struct alignas(32) Tile {
    Floats reference, working;
    Whole mask;
};

struct alignas(16) ScreenVertex {
    float x, y, depth;
    std::uint32_t behind;
};

struct Lanes {
    Floats x[3], y[3], depth[3], behind[3];
};

// Eight triangles, ready to be drawn: the long edge goes from the top to the bottom, the two short ones meet in the
// middle. Where `side` has the sign bit the middle lies to the left of the long edge.
struct alignas(32) Setup {
    float top_x[8], top_y[8], middle_x[8], middle_y[8], slope_long[8], slope_upper[8], slope_lower[8], side[8];
    float plane_x[8], plane_y[8], plane_level[8], least[8], greatest[8], left[8], right[8];
    std::int32_t row[8], row_end[8], tile_left[8], tile_right[8];
};

// Columns of a row of tiles in eight rows of samples: from the first to before the end.
struct Spans {
    Whole first, end;
};

// A rectangle of pixels, at a depth.
struct Area {
    int x0, y0, x1, y1;
    float depth;
};

void transpose(const float* const rows[8], Floats out[4]) {
    Floats pair[4];
    for (int k = 0; k < 4; ++k)
        pair[k] = _mm256_insertf128_ps(_mm256_castps128_ps256(_mm_load_ps(rows[k])), _mm_load_ps(rows[k + 4]), 1);
    const Floats low01 = _mm256_unpacklo_ps(pair[0], pair[1]), low23 = _mm256_unpacklo_ps(pair[2], pair[3]);
    const Floats high01 = _mm256_unpackhi_ps(pair[0], pair[1]), high23 = _mm256_unpackhi_ps(pair[2], pair[3]);
    out[0] = _mm256_shuffle_ps(low01, low23, 0x44);
    out[1] = _mm256_shuffle_ps(low01, low23, 0xEE);
    out[2] = _mm256_shuffle_ps(high01, high23, 0x44);
    out[3] = _mm256_shuffle_ps(high01, high23, 0xEE);
}

// The tiles of a screen.
class Tiles {
public:
    Tiles(int width, int height)
        : width_(width), height_(height), columns_((width + TILE_WIDTH - 1) / TILE_WIDTH),
          rows_((height + TILE_HEIGHT - 1) / TILE_HEIGHT), stride_((columns_ + 7) / 8 * 8 + 8),
          tiles_(std::size_t(columns_) * rows_), least_(std::size_t(stride_) * rows_, FAR_AWAY) {}

    void clear() {
        std::fill(tiles_.begin(), tiles_.end(), Tile{all(0.0f), all(0.0f), all(0)});
        if (width_ % TILE_WIDTH != 0)
            for (int row = 0; row < rows_; ++row) put_beside(row, columns_ - 1);
        if (height_ % TILE_HEIGHT != 0)
            for (int column = 0; column < columns_; ++column) put_beside(rows_ - 1, column);
        for (int row = 0; row < rows_; ++row) std::fill_n(&least_[std::size_t(row) * stride_], columns_, 0.0f);
    }

    // A bit for each of up to eight tiles of a row, from a column to before an end, that has a reference below a depth.
    unsigned below(int row, int column, int end, Floats depth) const {
        const Floats least = _mm256_loadu_ps(&least_[std::size_t(row) * stride_ + column]);
        const unsigned found = unsigned(_mm256_movemask_ps(less(least, depth)));
        return _bzhi_u32(found, unsigned(end - column));
    }

    // The samples of a tile's subtiles in the spans.
    static Whole masks(const Spans& spans, int column) {
        const Whole x = all(TILE_WIDTH * column), none = all(0), full = all(-1);
        const Whole from = _mm256_sllv_epi32(full, _mm256_max_epi32(_mm256_sub_epi32(spans.first, x), none));
        const Whole past = _mm256_sllv_epi32(full, _mm256_max_epi32(_mm256_sub_epi32(spans.end, x), none));
        const Whole order = _mm256_broadcastsi128_si256(
            _mm_setr_epi8(0, 4, 8, 12, 1, 5, 9, 13, 2, 6, 10, 14, 3, 7, 11, 15));
        return _mm256_shuffle_epi8(_mm256_andnot_si256(past, from), order);
    }

    // Merges a depth for each subtile into the samples of its mask.
    void merge(int row, int column, Floats depth, Whole covered) {
        Tile& tile = tiles_[std::size_t(row) * columns_ + column];
        const Floats reference = tile.reference, working = tile.working;
        const Floats none = floats(_mm256_cmpeq_epi32(covered, all(0)));
        const Floats alive = _mm256_andnot_ps(none, less(reference, depth));
        // the working layer goes where the depth is further before it than it is before the reference
        const Floats nearer = less(_mm256_add_ps(working, working), _mm256_add_ps(depth, reference));
        const Floats drop = _mm256_or_ps(nearer, floats(_mm256_cmpeq_epi32(covered, all(-1))));
        const Whole mask = _mm256_or_si256(_mm256_andnot_si256(bits(drop), tile.mask), covered);
        const Floats layer = select(drop, depth, _mm256_min_ps(working, depth));
        const Floats full = floats(_mm256_cmpeq_epi32(mask, all(-1)));
        tile.working = select(alive, _mm256_andnot_ps(full, layer), working);
        tile.mask = bits(select(alive, _mm256_andnot_ps(full, floats(mask)), floats(tile.mask)));
        // whether a layer closes is as good as random: no branch
        tile.reference = select(_mm256_and_ps(alive, full), layer, reference);
        least_[std::size_t(row) * stride_ + column] = least_of(tile.reference);
    }

    // Whether each sample of an area on the screen is hidden.
    bool hides(const Area& area) const {
        const Floats depth = all(area.depth);
        const int column_end = (area.x1 + TILE_WIDTH - 1) / TILE_WIDTH;
        for (int row = area.y0 / TILE_HEIGHT; row * TILE_HEIGHT < area.y1; ++row)
            for (int strip = area.x0 / TILE_WIDTH; strip < column_end; strip += 8) {
                const Floats least = _mm256_loadu_ps(&least_[std::size_t(row) * stride_ + strip]);
                unsigned open = unsigned(_mm256_movemask_ps(_mm256_cmp_ps(least, depth, _CMP_LE_OQ)));
                open = _bzhi_u32(open, unsigned(std::min(column_end - strip, 8)));
                for (; open != 0; open &= open - 1)
                    if (!tile_hides(row, strip + int(_tzcnt_u32(open)), area)) return false;
            }
        return true;
    }

private:
    // The subtiles of a tile that are beside the screen take nothing.
    void put_beside(int row, int column) {
        const Whole across = _mm256_setr_epi32(0, 8, 16, 24, 0, 8, 16, 24);
        const Whole down = _mm256_setr_epi32(0, 0, 0, 0, 4, 4, 4, 4);
        const Whole in_x = _mm256_cmpgt_epi32(all(width_ - TILE_WIDTH * column), across);
        const Whole in_y = _mm256_cmpgt_epi32(all(height_ - TILE_HEIGHT * row), down);
        const Floats on_screen = floats(_mm256_and_si256(in_x, in_y));
        tiles_[std::size_t(row) * columns_ + column].reference = _mm256_andnot_ps(on_screen, all(FAR_AWAY));
    }

    bool tile_hides(int row, int column, const Area& area) const {
        const Tile& tile = tiles_[std::size_t(row) * columns_ + column];
        const Whole rows = _mm256_add_epi32(all(TILE_HEIGHT * row), _mm256_cvtps_epi32(counting()));
        const Whole inside = _mm256_andnot_si256(_mm256_cmpgt_epi32(all(area.y0), rows),
                                                 _mm256_cmpgt_epi32(all(area.y1), rows));
        const Whole samples = masks({all(area.x0), _mm256_and_si256(inside, all(area.x1))}, column);
        const Floats depth = all(area.depth);
        const Floats open = _mm256_cmp_ps(tile.reference, depth, _CMP_LE_OQ);
        const Floats open_layer = _mm256_cmp_ps(tile.working, depth, _CMP_LE_OQ);
        const Whole seen = _mm256_or_si256(_mm256_andnot_si256(tile.mask, bits(open)),
                                           _mm256_and_si256(tile.mask, bits(open_layer)));
        return _mm256_testz_si256(seen, samples);
    }

    int width_, height_, columns_, rows_, stride_;
    std::vector<Tile> tiles_;
    // For each tile the least of its references; beside the screen there is none to be found.
    std::vector<float> least_;
};

// One triangle of a setup while it is drawn.
class Drawing {
public:
    Drawing(const Setup& setup, int lane, Tiles& tiles) : setup_(setup), lane_(lane), tiles_(tiles) {}

    void draw() {
        const Floats greatest = all(setup_.greatest[lane_]);
        const int left = setup_.tile_left[lane_], right = setup_.tile_right[lane_];
        const int row_end = (setup_.row_end[lane_] + TILE_HEIGHT - 1) / TILE_HEIGHT;
        for (int row = setup_.row[lane_] / TILE_HEIGHT; row < row_end; ++row)
            for (int strip = left; strip < right; strip += 8)
                if (unsigned found = tiles_.below(row, strip, std::min(right, strip + 8), greatest))
                    draw_strip(row, strip, found, right - left > FEW);
    }

private:
    void draw_strip(int row, int strip, unsigned found, bool wide) {
        const Spans spans = spans_of(row);
        if (wide) found = _bzhi_u32(found, end_of(spans, strip)) & ~0u << first_of(spans, strip);
        const Floats start = depths_of(row);
        const Floats step = all(TILE_WIDTH * setup_.plane_x[lane_]), least = all(setup_.least[lane_]);
        for (; found != 0; found &= found - 1) {
            const int column = strip + int(_tzcnt_u32(found));
            const Floats depth = _mm256_fmadd_ps(step, all(float(column)), start);
            tiles_.merge(row, column, _mm256_max_ps(depth, least), Tiles::masks(spans, column));
        }
    }

    // The tiles of a strip that a span reaches: from the first to before the end.
    static unsigned first_of(const Spans& spans, int strip) {
        return unsigned(std::min(std::max(least_of(spans.first) / TILE_WIDTH - strip, 0), 31));
    }
    static unsigned end_of(const Spans& spans, int strip) {
        const int end = 65535 - least_of(_mm256_sub_epi32(all(65535), spans.end));
        return unsigned(std::min(std::max((end + TILE_WIDTH - 1) / TILE_WIDTH - strip, 0), 8));
    }

    Spans spans_of(int row) const {
        const int k = lane_;
        const Floats below = _mm256_add_ps(all(float(TILE_HEIGHT * row) + 0.5f), counting());
        const Floats from_top = _mm256_sub_ps(below, all(setup_.top_y[k]));
        const Floats from_middle = _mm256_sub_ps(below, all(setup_.middle_y[k]));
        const Floats far = _mm256_fmadd_ps(from_top, all(setup_.slope_long[k]), all(setup_.top_x[k]));
        const Floats upper = _mm256_fmadd_ps(from_top, all(setup_.slope_upper[k]), all(setup_.top_x[k]));
        const Floats lower = _mm256_fmadd_ps(from_middle, all(setup_.slope_lower[k]), all(setup_.middle_x[k]));
        // two edges bound on the side of the middle: to its right the lesser counts, to its left the greater
        const Floats side = all(setup_.side[k]);
        const Floats both = _mm256_min_ps(_mm256_xor_ps(upper, side), _mm256_xor_ps(lower, side));
        const Floats bent = _mm256_xor_ps(both, side);
        const Floats low = all(setup_.left[k]), high = all(setup_.right[k]);
        const Whole first = _mm256_cvtps_epi32(clamp(select(side, bent, far), low, high));
        const Whole end = _mm256_cvtps_epi32(clamp(select(side, far, bent), low, high));
        const Whole rows = _mm256_cvtps_epi32(_mm256_sub_ps(below, all(0.5f)));
        const Whole inside = _mm256_andnot_si256(_mm256_cmpgt_epi32(all(setup_.row[k]), rows),
                                                 _mm256_cmpgt_epi32(all(setup_.row_end[k]), rows));
        return {first, _mm256_and_si256(end, inside)};
    }

    // The least depth over each subtile of the row's first tile.
    Floats depths_of(int row) const {
        const Floats across = _mm256_setr_ps(0, 8, 16, 24, 0, 8, 16, 24);
        const Floats down = _mm256_setr_ps(0, 0, 0, 0, 4, 4, 4, 4);
        const Floats y = _mm256_add_ps(down, all(float(TILE_HEIGHT * row)));
        const Floats level = _mm256_fmadd_ps(y, all(setup_.plane_y[lane_]), all(setup_.plane_level[lane_]));
        return _mm256_fmadd_ps(across, all(setup_.plane_x[lane_]), level);
    }

    const Setup& setup_;
    const int lane_;
    Tiles& tiles_;
};

// Makes setups of eight triangles.
class Maker {
public:
    Maker(int width, int height) : width_(float(width)), height_(float(height)) {}

    // Fills a setup; a bit for each triangle that may cover a sample, and adds up those of area and winding.
    unsigned make(const Lanes& lanes, Winding winding, unsigned among, Setup& out, std::size_t& pieces) const {
        const Floats x01 = _mm256_sub_ps(lanes.x[1], lanes.x[0]), y01 = _mm256_sub_ps(lanes.y[1], lanes.y[0]);
        const Floats x02 = _mm256_sub_ps(lanes.x[2], lanes.x[0]), y02 = _mm256_sub_ps(lanes.y[2], lanes.y[0]);
        const Floats area = _mm256_fmsub_ps(x01, y02, _mm256_mul_ps(y01, x02));
        const Floats size = _mm256_andnot_ps(all(-0.0f), area);
        Floats kept = less(all(FLAT), size);
        if (winding != KEEPS_BOTH) {
            const Floats turned = winding == DROPS_CLOCKWISE ? area : _mm256_xor_ps(area, all(-0.0f));
            kept = _mm256_and_ps(kept, less(turned, all(0.0f)));
        }
        among &= unsigned(_mm256_movemask_ps(kept));
        pieces += std::size_t(_mm_popcnt_u32(among));
        among &= unsigned(_mm256_movemask_ps(put_box(lanes, out)));
        if (among == 0) return 0;
        const Floats inverse = _mm256_div_ps(all(1.0f), area);
        put_plane(lanes, inverse, x01, y01, x02, y02, out);
        put_edges(lanes, out);
        return among;
    }

private:
    static Floats least(const Floats three[3]) { return _mm256_min_ps(_mm256_min_ps(three[0], three[1]), three[2]); }
    static Floats most(const Floats three[3]) { return _mm256_max_ps(_mm256_max_ps(three[0], three[1]), three[2]); }

    // The pixels whose middles stand in the box, and whether there is one on the screen.
    Floats put_box(const Lanes& lanes, Setup& out) const {
        const Floats half = all(0.5f), none = all(0.0f);
        const Floats left = clamp(rounded_up(_mm256_sub_ps(least(lanes.x), half)), none, all(width_));
        const Floats right = clamp(rounded_up(_mm256_sub_ps(most(lanes.x), half)), none, all(width_));
        const Floats row = clamp(rounded_up(_mm256_sub_ps(least(lanes.y), half)), none, all(height_));
        const Floats row_end = clamp(rounded_up(_mm256_sub_ps(most(lanes.y), half)), none, all(height_));
        _mm256_store_ps(out.left, left);
        _mm256_store_ps(out.right, right);
        store(out.row, _mm256_cvtps_epi32(row));
        store(out.row_end, _mm256_cvtps_epi32(row_end));
        store(out.tile_left, _mm256_srli_epi32(_mm256_cvtps_epi32(left), 5));
        const Whole past = _mm256_add_epi32(_mm256_cvtps_epi32(right), all(TILE_WIDTH - 1));
        store(out.tile_right, _mm256_srli_epi32(past, 5));
        _mm256_store_ps(out.least, least(lanes.depth));
        _mm256_store_ps(out.greatest, most(lanes.depth));
        return _mm256_and_ps(less(left, right), less(row, row_end));
    }

    // The plane of depths, with the level at the place in a subtile where it is least.
    static void put_plane(const Lanes& lanes, Floats inverse, Floats x01, Floats y01, Floats x02, Floats y02,
                          Setup& out) {
        const Floats z01 = _mm256_sub_ps(lanes.depth[1], lanes.depth[0]);
        const Floats z02 = _mm256_sub_ps(lanes.depth[2], lanes.depth[0]);
        const Floats by_x = _mm256_mul_ps(_mm256_fmsub_ps(z01, y02, _mm256_mul_ps(z02, y01)), inverse);
        const Floats by_y = _mm256_mul_ps(_mm256_fmsub_ps(z02, x01, _mm256_mul_ps(z01, x02)), inverse);
        const Floats none = all(0.0f), middle = all(0.5f);
        const Floats x = select(less(by_x, none), all(7.5f), middle), y = select(less(by_y, none), all(3.5f), middle);
        const Floats level = _mm256_fmadd_ps(_mm256_sub_ps(x, lanes.x[0]), by_x, lanes.depth[0]);
        _mm256_store_ps(out.plane_x, by_x);
        _mm256_store_ps(out.plane_y, by_y);
        _mm256_store_ps(out.plane_level, _mm256_fmadd_ps(_mm256_sub_ps(y, lanes.y[0]), by_y, level));
    }

    // Puts two points in order, the upper one first.
    static void sort(Floats& x0, Floats& y0, Floats& x1, Floats& y1) {
        const Floats swap = less(y1, y0);
        const Floats x = select(swap, x1, x0);
        x1 = select(swap, x0, x1);
        x0 = x;
        const Floats y = _mm256_min_ps(y0, y1);
        y1 = _mm256_max_ps(y0, y1);
        y0 = y;
    }

    static Floats slope(Floats across, Floats down) { return _mm256_div_ps(across, _mm256_max_ps(down, all(FLAT))); }

    static void put_edges(const Lanes& lanes, Setup& out) {
        Floats x0 = lanes.x[0], x1 = lanes.x[1], x2 = lanes.x[2], y0 = lanes.y[0], y1 = lanes.y[1], y2 = lanes.y[2];
        sort(x0, y0, x1, y1);
        sort(x1, y1, x2, y2);
        sort(x0, y0, x1, y1);
        const Floats across = _mm256_sub_ps(x2, x0), down = _mm256_sub_ps(y2, y0);
        const Floats across_middle = _mm256_sub_ps(x1, x0), down_middle = _mm256_sub_ps(y1, y0);
        // the sign of what the middle is to the right of the long edge
        const Floats beside = _mm256_fmsub_ps(across_middle, down, _mm256_mul_ps(across, down_middle));
        _mm256_store_ps(out.side, _mm256_and_ps(beside, all(-0.0f)));
        _mm256_store_ps(out.top_x, x0);
        _mm256_store_ps(out.top_y, y0);
        _mm256_store_ps(out.middle_x, x1);
        _mm256_store_ps(out.middle_y, y1);
        _mm256_store_ps(out.slope_long, slope(across, down));
        _mm256_store_ps(out.slope_upper, slope(across_middle, down_middle));
        _mm256_store_ps(out.slope_lower, slope(_mm256_sub_ps(x2, x1), _mm256_sub_ps(y2, y1)));
    }

    static void store(std::int32_t* out, Whole lanes) { _mm256_store_si256(reinterpret_cast<Whole*>(out), lanes); }

    float width_, height_;
};

// A camera in floats: a row for each of x, y and w.
struct View {
    float row[3][4];

    explicit View(const Camera& camera) {
        for (int k = 0; k < 12; ++k) row[k / 4][k % 4] = float(camera[std::size_t(k)]) / (k % 4 == 3 ? 1 : 65536);
    }

    Floats of(int k, Floats x, Floats y, Floats z) const {
        const Floats sum = _mm256_fmadd_ps(z, all(row[k][2]), all(row[k][3]));
        return _mm256_fmadd_ps(x, all(row[k][0]), _mm256_fmadd_ps(y, all(row[k][1]), sum));
    }

    float of(int k, const Vertex& v) const {
        return row[k][0] * float(v[0]) + row[k][1] * float(v[1]) + row[k][2] * float(v[2]) + row[k][3];
    }
};

// Numbers in lanes: as many as a multiple of eight.
class Column {
public:
    void push(float number) { numbers_.push_back(number); }
    void fill() {
        while (numbers_.size() % 8 != 0) numbers_.push_back(0);
    }
    Floats at(std::size_t k) const { return _mm256_loadu_ps(&numbers_[k]); }

private:
    std::vector<float> numbers_;
};

class Culler {
public:
    explicit Culler(const Scene& scene)
        : scene_(scene), near_(float(scene.near_distance)), maker_(scene.width, scene.height),
          tiles_(scene.width, scene.height), screen_((scene.vertices.size() + 7) / 8 * 8) {
        for (const Vertex& vertex : scene.vertices)
            for (int k = 0; k < 3; ++k) places_[k].push(float(vertex[std::size_t(k)]));
        for (std::size_t k = 0; k < scene.objects.size(); ++k) {
            if (scene.objects[k].kind != BOX) continue;
            boxes_.push_back(k);
            for (std::size_t side = 0; side < 6; ++side) sides_[side].push(float(scene.objects[k].numbers[side]));
        }
        for (Column& column : places_) column.fill();
        for (Column& column : sides_) column.fill();
    }

    void cull(const Camera& camera, Frame& frame) {
        const View view(camera);
        frame.pieces = 0;
        tiles_.clear();
        for (std::size_t k = 0; k < screen_.size(); k += 8) place(view, k);
        std::size_t first = 0;
        for (const Batch& batch : scene_.batches) {
            const std::size_t end = first + batch.count;
            for (; first + 8 <= end; first += 8) draw(view, &scene_.occluders[first], 8, batch.winding, frame.pieces);
            if (first < end)
                draw(view, &scene_.occluders[first], int(end - first), batch.winding, frame.pieces);
            first = end;
        }
        for (std::size_t k = 0; k < boxes_.size(); k += 8) test_boxes(view, k, frame);
        for (std::size_t k = 0; k < scene_.objects.size(); ++k)
            if (scene_.objects[k].kind != BOX) frame.verdicts[k] = verdict_of(scene_.objects[k]);
    }

private:
    Floats screen_x(Floats x, Floats inverse) const {
        const Floats half = all(0.5f * float(scene_.width));
        return _mm256_fmadd_ps(_mm256_mul_ps(x, inverse), half, half);
    }
    Floats screen_y(Floats y, Floats inverse) const {
        const Floats half = all(0.5f * float(scene_.height));
        return _mm256_fnmadd_ps(_mm256_mul_ps(y, inverse), half, half);
    }

    // Eight vertices on the screen.
    void place(const View& view, std::size_t first) {
        const Floats x = places_[0].at(first), y = places_[1].at(first), z = places_[2].at(first);
        const Floats w = view.of(2, x, y, z), inverse = _mm256_div_ps(all(1.0f), w);
        const Floats place_x = screen_x(view.of(0, x, y, z), inverse);
        const Floats place_y = screen_y(view.of(1, x, y, z), inverse);
        const Floats depth = _mm256_mul_ps(all(near_), inverse), behind = less(w, all(near_));
        const Floats xy_low = _mm256_unpacklo_ps(place_x, place_y), xy_high = _mm256_unpackhi_ps(place_x, place_y);
        const Floats zb_low = _mm256_unpacklo_ps(depth, behind), zb_high = _mm256_unpackhi_ps(depth, behind);
        const Floats rows[4] = {_mm256_shuffle_ps(xy_low, zb_low, 0x44), _mm256_shuffle_ps(xy_low, zb_low, 0xEE),
                                _mm256_shuffle_ps(xy_high, zb_high, 0x44), _mm256_shuffle_ps(xy_high, zb_high, 0xEE)};
        float* out = &screen_[first].x;
        for (int k = 0; k < 4; ++k) {
            _mm_store_ps(out + 4 * k, _mm256_castps256_ps128(rows[k]));
            _mm_store_ps(out + 4 * k + 16, _mm256_extractf128_ps(rows[k], 1));
        }
    }

    // Up to eight triangles, the lanes behind the last one like it.
    static Lanes lanes_of(const ScreenVertex* vertices, const Triangle* triangles, int count) {
        Lanes lanes;
        for (std::size_t corner = 0; corner < 3; ++corner) {
            const float* rows[8];
            for (int k = 0; k < 8; ++k) rows[k] = &vertices[triangles[std::min(k, count - 1)][corner]].x;
            Floats out[4];
            transpose(rows, out);
            lanes.x[corner] = out[0];
            lanes.y[corner] = out[1];
            lanes.depth[corner] = out[2];
            lanes.behind[corner] = out[3];
        }
        return lanes;
    }

    void draw(const View& view, const Triangle* triangles, int count, Winding winding, std::size_t& pieces) {
        const Lanes lanes = count == 8 ? lanes_of(screen_.data(), triangles, 8)
                                       : lanes_of(screen_.data(), triangles, count);
        const Floats any = _mm256_or_ps(_mm256_or_ps(lanes.behind[0], lanes.behind[1]), lanes.behind[2]);
        const Floats each = _mm256_and_ps(_mm256_and_ps(lanes.behind[0], lanes.behind[1]), lanes.behind[2]);
        const unsigned among = _bzhi_u32(255, unsigned(count)), cut = unsigned(_mm256_movemask_ps(any)) & among;
        draw_lanes(lanes, winding, among & ~cut, pieces);
        if (unsigned crossing = cut & ~unsigned(_mm256_movemask_ps(each)))
            draw_cut(view, triangles, crossing, winding, pieces);
    }

    void draw_lanes(const Lanes& lanes, Winding winding, unsigned among, std::size_t& pieces) {
        Setup setup;
        for (unsigned left = maker_.make(lanes, winding, among, setup, pieces); left != 0; left &= left - 1)
            Drawing(setup, int(_tzcnt_u32(left)), tiles_).draw();
    }

    // Those of eight triangles that cross the near plane: their near parts.
    void draw_cut(const View& view, const Triangle* triangles, unsigned crossing, Winding winding,
                  std::size_t& pieces) {
        ScreenVertex corners[48];
        Triangle parts[16];
        int count = 0;
        for (; crossing != 0; crossing &= crossing - 1) {
            ScreenVertex near_part[4];
            const int size = cut(view, triangles[_tzcnt_u32(crossing)], near_part);
            for (int k = 2; k < size; ++k, ++count) {
                const ScreenVertex three[] = {near_part[0], near_part[k - 1], near_part[k]};
                std::copy(three, three + 3, corners + 3 * count);
                parts[count] = {std::uint32_t(3 * count), std::uint32_t(3 * count + 1), std::uint32_t(3 * count + 2)};
            }
        }
        for (int first = 0; first < count; first += 8) {
            const int size = std::min(count - first, 8);
            draw_lanes(lanes_of(corners, parts + first, size), winding, _bzhi_u32(255, unsigned(size)), pieces);
        }
    }

    // The near part of a triangle, which has up to four corners.
    int cut(const View& view, const Triangle& triangle, ScreenVertex* out) const {
        float clip[3][3];
        for (std::size_t k = 0; k < 3; ++k)
            for (int row = 0; row < 3; ++row) clip[k][row] = view.of(row, scene_.vertices[triangle[k]]);
        int size = 0;
        for (int k = 0; k < 3; ++k) {
            const float *from = clip[k], *to = clip[(k + 1) % 3];
            if (from[2] >= near_) out[size++] = projected(from[0], from[1], from[2]);
            if ((from[2] >= near_) == (to[2] >= near_)) continue;
            const float part = (near_ - from[2]) / (to[2] - from[2]);
            out[size++] = projected(from[0] + part * (to[0] - from[0]), from[1] + part * (to[1] - from[1]), near_);
        }
        return size;
    }

    ScreenVertex projected(float x, float y, float w) const {
        const float half_x = 0.5f * float(scene_.width), half_y = 0.5f * float(scene_.height);
        return {half_x + half_x * x / w, half_y - half_y * y / w, near_ / w, 0};
    }

    // Where eight boxes reach on the screen.
    struct Reach {
        Floats x0 = all(FAR_AWAY), y0 = x0, w0 = x0, x1 = all(-FAR_AWAY), y1 = x1, w1 = x1;
    };

    Reach reach_of(const View& view, std::size_t first) const {
        Floats part[3][3][2];
        for (int row = 0; row < 3; ++row)
            for (int axis = 0; axis < 3; ++axis)
                for (int end = 0; end < 2; ++end) {
                    const Floats add = all(axis == 2 ? view.row[row][3] : 0);
                    const Floats side = sides_[3 * end + axis].at(first);
                    part[row][axis][end] = _mm256_fmadd_ps(side, all(view.row[row][axis]), add);
                }
        Reach reach;
        for (int corner = 0; corner < 8; ++corner) {
            Floats place[3];
            for (int row = 0; row < 3; ++row)
                place[row] = _mm256_add_ps(_mm256_add_ps(part[row][0][corner & 1], part[row][1][corner >> 1 & 1]),
                                           part[row][2][corner >> 2]);
            const Floats inverse = _mm256_div_ps(all(1.0f), place[2]);
            const Floats x = screen_x(place[0], inverse), y = screen_y(place[1], inverse);
            reach.x0 = _mm256_min_ps(reach.x0, x), reach.x1 = _mm256_max_ps(reach.x1, x);
            reach.y0 = _mm256_min_ps(reach.y0, y), reach.y1 = _mm256_max_ps(reach.y1, y);
            reach.w0 = _mm256_min_ps(reach.w0, place[2]), reach.w1 = _mm256_max_ps(reach.w1, place[2]);
        }
        return reach;
    }

    // The pixels from the one of the least number to the one of the greatest, on the screen.
    static void put_pixels(Floats low, Floats high, int size, std::int32_t* from, std::int32_t* to) {
        const Floats none = all(0.0f), end = all(float(size));
        const Floats past = _mm256_add_ps(_mm256_floor_ps(high), all(1.0f));
        _mm256_storeu_si256(reinterpret_cast<Whole*>(from), _mm256_cvtps_epi32(clamp(_mm256_floor_ps(low), none, end)));
        _mm256_storeu_si256(reinterpret_cast<Whole*>(to), _mm256_cvtps_epi32(clamp(past, none, end)));
    }

    void test_boxes(const View& view, std::size_t first, Frame& frame) const {
        const Reach reach = reach_of(view, first);
        std::int32_t x0[8], x1[8], y0[8], y1[8];
        put_pixels(reach.x0, reach.x1, scene_.width, x0, x1);
        put_pixels(reach.y0, reach.y1, scene_.height, y0, y1);
        float depth[8];
        _mm256_storeu_ps(depth, _mm256_div_ps(all(near_), reach.w0));
        const unsigned behind = unsigned(_mm256_movemask_ps(less(reach.w1, all(near_))));
        const unsigned crossing = unsigned(_mm256_movemask_ps(less(reach.w0, all(near_))));
        const std::size_t count = std::min<std::size_t>(8, boxes_.size() - first);
        for (std::size_t k = 0; k < count; ++k) {
            Verdict& verdict = frame.verdicts[boxes_[first + k]];
            if (behind >> k & 1) {
                verdict = Verdict::outside;
            } else if (crossing >> k & 1) {
                verdict = Verdict::visible;
            } else {
                verdict = tested({x0[k], y0[k], x1[k], y1[k], depth[k]});
            }
        }
    }

    Verdict tested(const Area& area) const {
        if (area.x0 >= area.x1 || area.y0 >= area.y1) return Verdict::outside;
        return tiles_.hides(area) ? Verdict::occluded : Verdict::visible;
    }

    Verdict verdict_of(const Object& object) const {
        if (object.kind == MESH) return mesh_verdict(object);
        const auto& n = object.numbers;
        const Area area = {std::max(n[0], 0), std::max(n[1], 0), std::min(n[2], scene_.width),
                           std::min(n[3], scene_.height), near_ / float(n[4])};
        if (area.x0 >= area.x1 || area.y0 >= area.y1) return Verdict::outside;
        return float(n[4]) < near_ ? Verdict::visible : tested(area);
    }

    // A mesh triangle by triangle, each by the rectangle around it with its nearest depth.
    Verdict mesh_verdict(const Object& mesh) const {
        bool all_behind = true, any_behind = false, any_on_screen = false;
        for (int k = 0; k < mesh.numbers[1]; ++k)
            for (std::uint32_t number : scene_.object_triangles[std::size_t(mesh.numbers[0] + k)])
                (screen_[number].behind ? any_behind : all_behind) = screen_[number].behind;
        if (all_behind) return Verdict::outside;
        if (any_behind) return Verdict::visible;
        for (int k = 0; k < mesh.numbers[1]; ++k) {
            const Verdict verdict = triangle_verdict(scene_.object_triangles[std::size_t(mesh.numbers[0] + k)]);
            if (verdict == Verdict::visible) return verdict;
            any_on_screen = any_on_screen || verdict == Verdict::occluded;
        }
        return any_on_screen ? Verdict::occluded : Verdict::outside;
    }

    Verdict triangle_verdict(const Triangle& triangle) const {
        const ScreenVertex &a = screen_[triangle[0]], &b = screen_[triangle[1]], &c = screen_[triangle[2]];
        std::int32_t x0[8], x1[8], y0[8], y1[8];
        put_pixels(all(std::min({a.x, b.x, c.x})), all(std::max({a.x, b.x, c.x})), scene_.width, x0, x1);
        put_pixels(all(std::min({a.y, b.y, c.y})), all(std::max({a.y, b.y, c.y})), scene_.height, y0, y1);
        return tested({x0[0], y0[0], x1[0], y1[0], std::max({a.depth, b.depth, c.depth})});
    }

    const Scene& scene_;
    float near_;
    Maker maker_;
    Tiles tiles_;
    std::vector<ScreenVertex> screen_;
    Column places_[3], sides_[6];
    std::vector<std::size_t> boxes_;
};

}  // namespace
}  // namespace rivals

int main(int count, char** words) {
    return rivals::guarded([&] {
        const rivals::Words given = rivals::words_of(count, words);
        if (given.exact) throw std::runtime_error("floats have no exact mode");
        if (!__builtin_cpu_supports("avx2") || !__builtin_cpu_supports("fma") || !__builtin_cpu_supports("bmi2"))
            throw std::runtime_error("this processor has no AVX2");
        return rivals::run<rivals::Culler>(rivals::read_scene(stdin), given);
    });
}
