// Holds the calls of floats of maskcull.h, and maskcull::exact_frame, against exact fractions, by GMP.
//
//     checks/c-exact     by each compiler, or
//     c++ -std=c++17 -O2 -Iinclude checks/c-exact.cpp crates/maskcull_c/out/libmaskcull_c.a -lgmpxx -lgmp -o exact
//     ./exact [SAMPLES [SEED [CHANGE]]]
//
// Views, near distances, sizes, windings, grades and occluders are random, in units from 2^-100 to 2^100: triangles and
// bent quads on the screen, before and behind the near plane and the eye, slivers, and some that are seen from their
// edge. A float is taken as the fraction that its bits say, and nothing is rounded. Looked at is
//
// - of each sample that a piece covers each corner of the square by the reach around it: the ray through it meets the
//   triangle, or one of the quad's two, of the kept winding, not before the near distance, and no farther than the
//   piece says at the sample;
// - of each box and mesh that is called occluded its corners and points between them: at each corner of the square
//   around the pixel in which such a point is seen a drawn triangle is met, of the kept winding, not before the near
//   distance, and nearer than each corner by the share; and of each that is called outside that no such point is seen
//   in the screen;
// - that maskcull::exact_frame makes of matrices and meshes in any layout what the calls make of rows and floats;
// - a slit between two meshes, through which a pixel's middle sees: maskcull::frame calls hidden what is behind it, and
//   maskcull::exact_frame doesn't, by a reach of 1.
//
// With a change, from 1 to 7, what the calls are given or what they give is changed: then there have to be wrong ones.
#include "maskcull.hpp"

#include <array>
#include <chrono>
#include <cstdlib>
#include <gmpxx.h>
#include <random>
#include <unistd.h>

namespace {

// What is changed: nothing; pieces are set up by a sixteenth less of reach; their nearness is one more; a corner lies a
// sixteenth further out; they are set up by half the near distance, or of both windings; a box is tested without a
// sixteenth of it on each axis; objects are tested without the share.
enum change { by_nothing, by_reach, by_nearness, by_place, by_near_distance, by_winding, by_side, by_share };
int changed = by_nothing;

using whole = mpz_class;
using maskcull::verdict;
using position = std::array<float, 3>;

std::mt19937_64 source;

std::uint32_t below(std::uint32_t end) { return static_cast<std::uint32_t>(source() % end); }

double between(double low, double high) { return std::uniform_real_distribution<double>(low, high)(source); }

bool is_one_of(std::uint32_t count) { return below(count) == 0; }

// A float in parts of 2^-149.
whole whole_of(float number) {
    std::uint32_t bits;
    std::memcpy(&bits, &number, sizeof bits);
    const std::uint32_t field = bits >> 23 & 255, part = bits & 0x7fffff;
    whole size = field == 0 ? part : part + 0x800000;
    size <<= field == 0 ? 0 : field - 1;
    return bits >> 31 != 0 ? -size : size;
}

// Clip coordinates in parts of 2^-298, and of less where all have common factors.
struct clip {
    whole x, y, w;
};

clip clip_of(const float (&rows)[12], const position &p) {
    const auto row = [&](int first) -> whole {
        whole sum = whole_of(rows[first + 3]) << 149;
        for (int k = 0; k < 3; k++) sum += whole_of(rows[first + k]) * whole_of(p[k]);
        return sum;
    };
    return {row(0), row(4), row(8)};
}

clip cross(const clip &p, const clip &q) {
    return {p.y * q.w - p.w * q.y, p.w * q.x - p.x * q.w, p.x * q.y - p.y * q.x};
}

whole dot(const clip &p, const clip &q) { return p.x * q.x + p.y * q.y + p.w * q.w; }

// A product with the ray through a place of the screen, in sixteenths of a pixel.
struct form {
    whole a, b, c;

    form() = default;
    form(const clip &line, long width, long height)
        : a(line.x * height), b(-line.y * width), c(8 * width * height * (line.w - line.x + line.y)) {}

    whole at(long x, long y) const { return a * x + b * y + c; }
};

// A triangle of clip points: its weights along a ray, and their sum.
struct face {
    form weights[3], sum;
    whole size;
    int sign; // above 0 where it is counterclockwise on the screen

    face(const clip &a, const clip &b, const clip &c, long width, long height) {
        clip lines[3] = {cross(b, c), cross(c, a), cross(a, b)};
        size = dot(a, lines[0]), sign = sgn(size), size = abs(size);
        clip all = {0, 0, 0};
        for (int k = 0; k < 3; k++) {
            if (sign < 0) lines[k] = {-lines[k].x, -lines[k].y, -lines[k].w};
            all = {all.x + lines[k].x, all.y + lines[k].y, all.w + lines[k].w};
            weights[k] = form(lines[k], width, height);
        }
        sum = form(all, width, height);
    }

    bool is_met(long x, long y) const {
        return sign != 0 && weights[0].at(x, y) >= 0 && weights[1].at(x, y) >= 0 && weights[2].at(x, y) >= 0;
    }
};

// A view, and triangles in it.
struct scene {
    maskcull_setup setup;
    maskcull_view view;
    std::vector<position> positions;
    std::vector<maskcull_triangle> triangles;
    std::vector<face> faces;
    whole near, ray_w; // the near distance, and the w of each ray

    std::uint32_t winding() const { return setup.winding % MASKCULL_WIDE; }
    long top() const { return setup.winding < MASKCULL_WIDE ? 65535 : 16777215; }
    long width() const { return view.width; }
    long height() const { return view.height; }

    bool is_kept(const face &f) const {
        return winding() == MASKCULL_KEEPS_BOTH || (winding() == MASKCULL_DROPS_CLOCKWISE ? f.sign > 0 : f.sign < 0);
    }

    void make_faces() {
        faces.clear(), near = whole_of(view.near_distance) << 149, ray_w = 8 * width() * height();
        for (const maskcull_triangle &t : triangles) {
            const auto corner = [&](std::uint32_t k) { return clip_of(view.rows, positions[k]); };
            faces.emplace_back(corner(t.a), corner(t.b), corner(t.c), width(), height());
        }
    }
};

struct counts {
    unsigned long cases = 0, pieces = 0, samples[4] = {}, boxes = 0, meshes = 0, hidden_boxes = 0, hidden_meshes = 0;
    unsigned long outside = 0, frames = 0, unlike = 0;
    unsigned long unmet = 0, of_winding = 0, cut = 0, farther = 0, seen = 0, strayed = 0;

    unsigned long covered() const { return samples[0] + samples[1] + samples[2] + samples[3]; }
    unsigned long wrong() const { return unmet + of_winding + cut + farther + seen + strayed; }
};

constexpr std::uint32_t reaches[4] = {0, 1, 8, 9};

// How positions come to clip space: turned, moved and stretched.
struct camera {
    double turned[3][3], moved[3], stretched[3], unit;

    camera() : stretched{std::exp(between(-1, 2)), std::exp(between(-1, 2)), 1} {
        const double a = between(-3.2, 3.2), b = is_one_of(2) ? between(-1.5, 1.5) : 0;
        const double rows[3][3] = {{std::cos(a), 0, std::sin(a)},
                                   {std::sin(a) * std::sin(b), std::cos(b), -std::cos(a) * std::sin(b)},
                                   {-std::sin(a) * std::cos(b), std::sin(b), std::cos(a) * std::cos(b)}};
        std::memcpy(turned, rows, sizeof turned);
        for (double &m : moved) m = is_one_of(4) ? 0 : between(-30, 30);
        unit = std::ldexp(1.0, is_one_of(3) ? static_cast<int>(below(201)) - 100 : static_cast<int>(below(21)) - 10);
    }

    // By a scale of the matrix. The near distance is some .1 before it.
    void set(maskcull_view &view) const {
        const double scale = std::ldexp(1.0, static_cast<int>(below(31)) - 15);
        for (int row = 0; row < 3; row++) {
            const double by = stretched[row] * scale;
            for (int k = 0; k < 3; k++) view.rows[4 * row + k] = static_cast<float>(by * turned[row][k]);
            view.rows[4 * row + 3] = static_cast<float>(by * moved[row] * unit);
        }
        view.near_distance = static_cast<float>(0.1 * unit * scale * (is_one_of(4) ? std::exp(between(-8, 3)) : 1));
    }

    // The position that comes to x / w, y / w and w, but for rounding.
    position at(double x, double y, double w) const {
        const double v[3] = {x * w / stretched[0] - moved[0], y * w / stretched[1] - moved[1], w - moved[2]};
        position p;
        for (int k = 0; k < 3; k++) {
            p[k] = static_cast<float>((turned[0][k] * v[0] + turned[1][k] * v[1] + turned[2][k] * v[2]) * unit);
        }
        return p;
    }
};

bool are_numbers(const float *floats, std::size_t count) {
    return std::all_of(floats, floats + count, [](float f) { return std::isfinite(f); });
}

position mixed(const position &p, const position &q, double part, double off) {
    position made;
    for (int k = 0; k < 3; k++) {
        made[k] = static_cast<float>(p[k] + (static_cast<double>(q[k]) - p[k]) * part + off * between(-1, 1));
    }
    return made;
}

void set_screen(scene &s, std::uint32_t most) {
    const std::uint32_t grade = is_one_of(4) ? MASKCULL_NARROW : MASKCULL_WIDE;
    s.setup = {8 * (1 + below(most / 8)), 4 * (1 + below(most / 8)), 1, below(3) + grade};
    s.view.width = s.setup.width - below(8), s.view.height = s.setup.height - below(4);
    s.view.reach = reaches[below(4)], s.view.share = 0, s.view.stride = 3;
}

// Where the corners of an occluder lie, by a kind.
void place_corners(scene &s, const camera &c, std::uint32_t kind) {
    const double away = std::exp(between(-2, 6));
    for (int k = 0; k < 3; k++) {
        const double w = kind == 0   ? between(-5, 20)
                         : kind == 1 ? std::exp(between(-3, 9))
                         : kind == 2 ? 0.1 * (1 + between(-1e-6, 1e-6))
                         : kind == 3 ? between(-1, 1) * 1e5
                                     : away * between(0.8, 1.2);
        const double reach = kind == 4 && k > 0 ? 1 : 1.5;
        s.positions.push_back(c.at(between(-reach, reach), between(-reach, reach), w));
    }
    position &a = s.positions[0], &b = s.positions[1], &last = s.positions[2];
    if (kind == 5) last = mixed(a, b, between(0, 1), 1e-4 * c.unit); // a sliver
    if (kind == 6) { // the eye is in its plane, or nearly
        const position eye = c.at(0, 0, 1e-3 * away);
        last = mixed(a, eye, 0.999, 1e-6 * c.unit);
    }
}

// False where a number is infinite, or none.
bool make_scene(scene &s) {
    set_screen(s, is_one_of(50) ? 2048 : 160);
    const camera c;
    c.set(s.view);
    s.positions.clear();
    place_corners(s, c, below(8));
    s.triangles = {{0, 1, 2}};
    if (is_one_of(2)) { // about a parallelogram, and bent
        const position across = mixed(s.positions[0], s.positions[2], 0.5, 1e-3 * c.unit);
        s.positions.push_back(mixed(s.positions[1], across, between(1.3, 3), 0));
        s.triangles.push_back({0, 2, 3});
    }
    if (!are_numbers(s.positions[0].data(), 3 * s.positions.size()) || !are_numbers(s.view.rows, 12)) return false;
    s.make_faces();
    return std::isfinite(s.view.near_distance) && s.view.near_distance > 0;
}

std::vector<maskcull_piece> pieces_of(const scene &s) {
    maskcull_setup setup = s.setup;
    maskcull_view view = s.view;
    if (changed == by_reach && view.reach > 0) view.reach--;
    if (changed == by_near_distance) view.near_distance /= 2;
    if (changed == by_winding) setup.winding = setup.winding / MASKCULL_WIDE * MASKCULL_WIDE;
    std::vector<maskcull_scratch> scratch(s.positions.size());
    std::vector<maskcull_piece> pieces(7 * s.triangles.size());
    std::size_t count = 0;
    const auto status = maskcull_set_up_floats(&setup, &view, s.positions[0].data(), 3 * s.positions.size(),
                                               s.triangles.data(), s.triangles.size(), scratch.data(), scratch.size(),
                                               pieces.data(), pieces.size(), &count);
    if (status != MASKCULL_DONE) std::printf("c-exact: a status of %u\n", status), std::exit(1);
    pieces.resize(count);
    for (maskcull_piece &p : pieces) {
        for (std::uint32_t &q : p.q) q += changed == by_nearness ? 1 : 0;
        if (changed == by_place) p.x[0] += p.x[0] > (p.x[1] + p.x[2]) / 2 ? 1 : -1;
    }
    return pieces;
}

std::int64_t edge(const maskcull_piece &t, int a, int b, std::int64_t x, std::int64_t y) {
    return (std::int64_t{t.x[b]} - t.x[a]) * (y - t.y[a]) - (std::int64_t{t.y[b]} - t.y[a]) * (x - t.x[a]);
}

bool is_inside(const maskcull_piece &t, int a, int b, std::int64_t value) {
    const bool is_top_or_left = t.y[b] < t.y[a] || (t.y[b] == t.y[a] && t.x[a] < t.x[b]);
    return value > 0 || (value == 0 && is_top_or_left);
}

// One corner of the square around a sample that a piece covers, whose depth there is a fraction.
void look_at_corner(const scene &s, long x, long y, const whole &numerator, const whole &area, counts &all) {
    bool is_met = false, is_kept = false, is_uncut = false;
    for (const face &f : s.faces) {
        if (!f.is_met(x, y)) continue;
        const whole sum = f.sum.at(x, y) * s.near, w = s.ray_w * f.size;
        const bool kept = s.is_kept(f), uncut = sum <= w;
        if (kept && uncut && numerator * w <= area * s.top() * sum) return;
        is_met = true, is_kept |= kept, is_uncut |= kept && uncut;
    }
    (!is_met ? all.unmet : !is_kept ? all.of_winding : !is_uncut ? all.cut : all.farther)++;
}

// One sample, where the piece covers it.
void look_at_sample(const scene &s, const maskcull_piece &t, long x, long y, counts &all) {
    const std::int64_t values[3] = {edge(t, 1, 2, x, y), edge(t, 2, 0, x, y), edge(t, 0, 1, x, y)};
    if (!is_inside(t, 1, 2, values[0]) || !is_inside(t, 2, 0, values[1]) || !is_inside(t, 0, 1, values[2])) return;
    whole numerator = 0;
    for (int k = 0; k < 3; k++) numerator += whole(static_cast<long>(values[k])) * t.q[k];
    const whole area = static_cast<long>(edge(t, 0, 1, t.x[2], t.y[2]));
    const long reach = s.view.reach;
    all.samples[std::find(reaches, reaches + 4, s.view.reach) - reaches]++;
    for (const long to_x : {-reach, reach}) {
        for (const long to_y : {-reach, reach}) look_at_corner(s, x + to_x, y + to_y, numerator, area, all);
    }
}

// Some samples of the screen about a piece, up to some 24 a row and 24 a column.
void look_at_piece(const scene &s, const maskcull_piece &t, counts &all) {
    const auto first = [](const std::int32_t(&v)[3], std::uint32_t end) {
        return std::clamp(*std::min_element(v, v + 3) >> 4, 0, static_cast<int>(end));
    };
    const auto past = [](const std::int32_t(&v)[3], std::uint32_t end) {
        return std::clamp((*std::max_element(v, v + 3) >> 4) + 1, 0, static_cast<int>(end));
    };
    const int x0 = first(t.x, s.view.width), x1 = past(t.x, s.view.width);
    const int y0 = first(t.y, s.view.height), y1 = past(t.y, s.view.height);
    const auto across = static_cast<std::uint32_t>(std::max(1, (x1 - x0) / 24));
    const auto down = static_cast<std::uint32_t>(std::max(1, (y1 - y0) / 24));
    for (auto py = y0 + static_cast<int>(below(down)); py < y1; py += static_cast<int>(1 + below(down))) {
        for (auto px = x0 + static_cast<int>(below(across)); px < x1; px += static_cast<int>(1 + below(across))) {
            look_at_sample(s, t, 16L * px + 8, 16L * py + 8, all);
        }
    }
}

// A mesh and a matrix as a program may have them: indices of 2 or 4 bytes, positions with other things between them
// that lie at any bytes, rows or columns, y downwards.
struct handed {
    maskcull::exact_options chosen;
    float numbers[16];
    std::vector<unsigned char> bytes;
    std::size_t stride, first;
    std::vector<std::uint16_t> short_indices;
    std::vector<std::uint32_t> long_indices;

    handed(const scene &s, const maskcull::exact_options &o)
        : chosen(o), stride(is_one_of(2) ? 4 * (3 + below(5)) : 12 + below(20)), first(is_one_of(2) ? 0 : below(8)) {
        for (int row = 0; row < 4; row++) {
            for (int k = 0; k < 4; k++) {
                const float number = row == 2 ? NAN : s.view.rows[4 * (row == 3 ? 2 : row) + k];
                numbers[chosen.matrices == maskcull::matrix_layout::rows ? 4 * row + k : 4 * k + row] =
                    row == 1 && chosen.y_is_down ? -number : number;
            }
        }
        bytes.assign(first + stride * (s.positions.size() - 1) + 12, 0xff);
        for (std::size_t k = 0; k < s.positions.size(); k++) {
            std::memcpy(&bytes[first + stride * k], s.positions[k].data(), 12);
        }
        for (const maskcull_triangle &t : s.triangles) {
            for (const std::uint32_t number : {t.a, t.b, t.c}) {
                long_indices.push_back(number), short_indices.push_back(static_cast<std::uint16_t>(number));
            }
        }
    }

    maskcull::mesh_view mesh() const {
        const std::size_t count = (bytes.size() - first - 12) / stride + 1;
        if (is_one_of(2)) return {&bytes[first], stride, count, short_indices.data(), short_indices.size()};
        return {&bytes[first], stride, count, long_indices.data(), long_indices.size()};
    }
};

maskcull::exact_options some_options(const scene &s) {
    maskcull::exact_options chosen;
    chosen.winding = static_cast<maskcull_winding>(s.winding());
    chosen.reach = s.view.reach, chosen.share = s.view.share, chosen.y_is_down = is_one_of(2);
    if (is_one_of(2)) chosen.matrices = maskcull::matrix_layout::rows;
    return chosen;
}

template <class Element> bool are_same(const Element *first, const std::vector<Element> &others) {
    return others.empty() || std::memcmp(first, others.data(), others.size() * sizeof others[0]) == 0;
}

// Whether a frame makes the same pieces and tiles.
void look_at_frame(const scene &s, const std::vector<maskcull_piece> &pieces, const std::vector<maskcull_tile> &tiles,
                   counts &all) {
    if (changed != by_nothing || s.setup.winding < MASKCULL_WIDE) return;
    const handed h(s, some_options(s));
    auto frame = maskcull::exact_frame::make(s.view.width, s.view.height, s.view.near_distance, h.chosen);
    maskcull::exact_pieces made;
    const bool is_like = frame && frame->set_up(h.numbers, h.mesh(), 0, s.triangles.size(), made) == MASKCULL_DONE
                         && frame->draw(h.numbers, h.mesh()) == MASKCULL_DONE && made.count == pieces.size()
                         && are_same(made.room.data(), pieces) && are_same(frame->tiles().data(), tiles);
    all.frames++, all.unlike += is_like ? 0 : 1;
}

std::vector<maskcull_tile> tiles_with(const scene &s, const std::vector<maskcull_piece> &pieces) {
    std::vector<maskcull_tile> tiles(maskcull_tile_count(s.setup.width, s.setup.height));
    maskcull_checked_draw_pieces(&s.setup, tiles.data(), tiles.size(), 0, pieces.data(), pieces.size());
    return tiles;
}

void look_at_pieces(const scene &s, counts &all) {
    const std::vector<maskcull_piece> pieces = pieces_of(s);
    all.cases++, all.pieces += pieces.size();
    for (const maskcull_piece &t : pieces) look_at_piece(s, t, all);
    if (is_one_of(16)) look_at_frame(s, pieces, tiles_with(s, pieces), all);
}

// Some walls, each of two triangles, that stand on the screen.
bool make_walls(scene &s, camera &c, double &away) {
    set_screen(s, 240);
    c = camera(), c.set(s.view), away = std::exp(between(-1, 5));
    s.view.share = is_one_of(2) ? 0 : below((1u << 20) + 1);
    s.positions.clear(), s.triangles.clear();
    for (std::uint32_t k = 0; k <= below(3); k++) {
        const double x0 = between(-1.5, 0), x1 = between(0.2, 1.5), y0 = between(-1.5, 0), y1 = between(0.2, 1.5);
        const auto first = static_cast<std::uint32_t>(s.positions.size());
        for (const auto &[x, y] : {std::pair{x0, y0}, {x1, y0}, {x1, y1}, {x0, y1}}) {
            s.positions.push_back(c.at(x, y, away * between(0.98, 1.02)));
        }
        s.triangles.push_back({first, first + 1, first + 2}), s.triangles.push_back({first, first + 2, first + 3});
    }
    if (!are_numbers(s.positions[0].data(), 3 * s.positions.size()) || !are_numbers(s.view.rows, 12)) return false;
    s.make_faces();
    return std::isfinite(s.view.near_distance) && s.view.near_distance > 0;
}

// The pixel in which a point is seen; false where it isn't in the screen.
bool is_on_screen(const scene &s, const clip &v, long &px, long &py) {
    if (v.w <= 0) return false;
    const whole x = s.width() * (v.x + v.w), y = s.height() * (v.w - v.y), two = 2 * v.w;
    if (x < 0 || y < 0 || x >= two * s.width() || y >= two * s.height()) return false;
    px = whole(x / two).get_si(), py = whole(y / two).get_si();
    return true;
}

// Whether a drawn triangle is met at a place, not before the near distance, and nearer than all corners by the share.
bool is_hidden_at(const scene &s, long x, long y, const std::vector<clip> &corners) {
    for (const face &f : s.faces) {
        if (!f.is_met(x, y) || !s.is_kept(f)) continue;
        const whole sum = f.sum.at(x, y), w = s.ray_w * f.size;
        const whole by_share = w * ((1 << 24) + static_cast<long>(s.view.share));
        const auto is_behind = [&](const clip &v) { return by_share < (v.w * sum << 24); };
        if (s.near * sum <= w && std::all_of(corners.begin(), corners.end(), is_behind)) return true;
    }
    return false;
}

// The corners of an object and points between them, by what it was called.
void judge(const scene &s, const std::vector<clip> &corners, std::uint32_t found, counts &all) {
    if (found != MASKCULL_OCCLUDED && found != MASKCULL_OUTSIDE) return;
    for (std::size_t k = 0; k < corners.size() + 6; k++) {
        clip v = {0, 0, 0};
        for (std::size_t j = 0; j < corners.size(); j++) {
            const long weight = k < corners.size() ? (k == j ? 1 : 0) : below(4) * below(50);
            v = {v.x + weight * corners[j].x, v.y + weight * corners[j].y, v.w + weight * corners[j].w};
        }
        long px, py;
        if (!is_on_screen(s, v, px, py)) continue;
        if (found == MASKCULL_OUTSIDE) {
            all.strayed++;
            continue;
        }
        const long x = 16 * px + 8, y = 16 * py + 8, reach = s.view.reach;
        for (const long to_x : {-reach, reach}) {
            for (const long to_y : {-reach, reach}) all.seen += is_hidden_at(s, x + to_x, y + to_y, corners) ? 0 : 1;
        }
    }
}

// Walls that were drawn, by the calls and by a frame where there is one that can be like them.
struct drawn {
    const scene &walls;
    const camera &by;
    double away;
    std::vector<maskcull_tile> tiles;
    maskcull::exact_options chosen;
    std::optional<maskcull::exact_frame> frame;

    maskcull_view view() const {
        maskcull_view asked = walls.view;
        if (changed == by_share) asked.share = 0;
        return asked;
    }

    // Counts an answer, and whether a frame's is another.
    void count(std::uint32_t found, verdict told, unsigned long &hidden, counts &all) const {
        const bool is_hidden = found == MASKCULL_OCCLUDED, is_outside = found == MASKCULL_OUTSIDE;
        hidden += is_hidden ? 1 : 0, all.outside += is_outside ? 1 : 0;
        const bool is_like = (told == verdict::occluded) == is_hidden && (told == verdict::outside) == is_outside;
        all.unlike += frame && !is_like ? 1 : 0;
    }
};

// A w before or behind the walls, or about the near plane and the eye.
double some_w(const drawn &d) {
    return is_one_of(8) ? between(-1, 2) : d.away * (is_one_of(3) ? between(0.9, 1.1) : std::exp(between(0, 2)));
}

// A box about a place.
maskcull_bounds some_box(const drawn &d) {
    const double w = some_w(d);
    const position middle = d.by.at(between(-1.3, 1.3), between(-1.3, 1.3), w);
    const double half = std::fabs(w) * std::exp(between(-7, is_one_of(8) ? 1 : -1)) * d.by.unit;
    maskcull_bounds box;
    for (int k = 0; k < 3; k++) {
        box.low[k] = static_cast<float>(middle[k] - half * between(0, 1));
        box.high[k] = static_cast<float>(middle[k] + half * between(0, 1));
    }
    return box;
}

void look_at_box(const drawn &d, counts &all) {
    maskcull_bounds box = some_box(d);
    const float *const ends[2] = {box.low, box.high};
    std::vector<clip> corners;
    for (int k = 0; k < 8; k++) {
        corners.push_back(clip_of(d.walls.view.rows, {ends[k & 1][0], ends[k >> 1 & 1][1], ends[k >> 2][2]}));
    }
    verdict told = verdict::visible;
    if (d.frame) told = d.frame->test_aabb(handed(d.walls, d.chosen).numbers, box.low, box.high);
    for (int k = 0; k < 3 && changed == by_side; k++) box.high[k] -= (box.high[k] - box.low[k]) / 16;
    const maskcull_view view = d.view();
    const auto found = maskcull_test_box_floats(&d.walls.setup, d.tiles.data(), d.tiles.size(), &view, &box);
    all.boxes++;
    d.count(found, told, all.hidden_boxes, all);
    judge(d.walls, corners, found, all);
}

// Two triangles about a place. One of them may be outside where both are called occluded.
void look_at_mesh(const drawn &d, counts &all) {
    scene mesh = d.walls;
    const double w = some_w(d), half = std::exp(between(-7, is_one_of(8) ? 1 : -1));
    const double x = between(-1.3, 1.3), y = between(-1.3, 1.3);
    mesh.positions.clear(), mesh.triangles = {{0, 1, 2}, {2, 1, 3}};
    for (int k = 0; k < 4; k++) {
        const double across = half * between(-1, 1), up = half * between(-1, 1);
        mesh.positions.push_back(d.by.at(x + across, y + up, w * (1 + half * between(-1, 1))));
    }
    const maskcull_view view = d.view();
    const auto found = maskcull_test_mesh_floats(&mesh.setup, d.tiles.data(), d.tiles.size(), &view,
                                                 mesh.positions[0].data(), 12, mesh.triangles.data(), 2);
    const handed h(mesh, d.chosen);
    all.meshes++;
    d.count(found, d.frame ? d.frame->test_mesh(h.numbers, h.mesh()) : verdict::visible, all.hidden_meshes, all);
    for (const maskcull_triangle &t : mesh.triangles) {
        std::vector<clip> corners;
        for (const std::uint32_t k : {t.a, t.b, t.c}) corners.push_back(clip_of(mesh.view.rows, mesh.positions[k]));
        judge(mesh, corners, found, all);
    }
}

void look_at_objects(const scene &s, const camera &c, double away, counts &all) {
    drawn d = {s, c, away, {}, some_options(s), std::nullopt};
    const std::vector<maskcull_piece> pieces = pieces_of(s);
    d.tiles = tiles_with(s, pieces);
    look_at_frame(s, pieces, d.tiles, all);
    if (changed == by_nothing && s.setup.winding >= MASKCULL_WIDE) {
        const handed h(s, d.chosen);
        d.frame = maskcull::exact_frame::make(s.view.width, s.view.height, s.view.near_distance, d.chosen);
        if (d.frame) d.frame->draw(h.numbers, h.mesh());
    }
    for (int k = 0; k < 32; k++) {
        look_at_box(d, all);
        look_at_mesh(d, all);
    }
}

// Two parts of a road's side, whose common corners differ by a centimetre, and a small box 99 m away. Between them it
// is seen, through the middle of pixel (93, 116); ten pixels above it is hidden.
struct road {
    const float matrix[16] = {-0x1.f2917cp-1f, 0x1.089324p-7f,  0x1.06f4eep-5f,  0x1.06e41ap-5f,
                              0,               0x1.b6ccb4p+0f,  -0x1.267af4p-3f, -0x1.26681cp-3f,
                              0x1.02d13ap-5f,  0x1.fda8bcp-3f,  0x1.fa8ad4p-1f,  0x1.fa6a6ap-1f,
                              0x1.7f0caep+8f,  0x1.f2500ap+7f,  0x1.2048f4p+10f, 0x1.20767ep+10f};
    const float points[8][3] = {{360.384f, 29.424f, -1127.56f}, {428.881f, 25.545f, -1142.19f},
                                {359.808f, 25.545f, -1138.57f}, {429.457f, 29.424f, -1131.18f},
                                {359.809f, 23.746f, -1138.55f}, {359.808f, 25.545f, -1138.56f},
                                {428.882f, 23.746f, -1142.18f}, {428.881f, 25.545f, -1142.19f}};
    const std::uint16_t indices[12] = {0, 3, 1, 0, 1, 2, 5, 7, 6, 5, 6, 4};

    // Whether it is called occluded in the slit, and above it.
    template <class Frame> std::array<bool, 2> hidden(std::optional<Frame> frame) const {
        const float places[2][3] = {{430.41f, 29.24f, -1076.2f}, {430.43f, 32.38f, -1075.74f}};
        std::array<bool, 2> found = {};
        if (!frame || frame->draw(matrix, {points, sizeof points[0], 8, indices, 12}) != MASKCULL_DONE) return found;
        for (int k = 0; k < 2; k++) {
            const position p = {places[k][0], places[k][1], places[k][2]};
            const position low = mixed(p, p, 0, 0.01), high = mixed(p, p, 0, 0.01);
            found[k] = frame->test_aabb(matrix, low.data(), high.data()) == verdict::occluded;
        }
        return found;
    }

    bool is_seen_through() const {
        maskcull::exact_options chosen;
        chosen.winding = MASKCULL_DROPS_CLOCKWISE, chosen.reach = 1;
        const auto rounded = hidden(maskcull::frame::make(640, 360, 0.5f, chosen.winding));
        const auto exact = hidden(maskcull::exact_frame::make(640, 360, 0.5f, chosen));
        const auto words = [](bool is_hidden) { return is_hidden ? "occluded" : "visible"; };
        std::printf("c-exact: behind a slit frame says %s and exact_frame %s, beside it %s and %s\n", words(rounded[0]),
                    words(exact[0]), words(rounded[1]), words(exact[1]));
        return rounded[0] && rounded[1] && !exact[0] && exact[1];
    }
};

// Once a second, on a terminal.
void tell_progress(const counts &all, unsigned long samples) {
    static auto next = std::chrono::steady_clock::now();
    if (isatty(2) == 0 || std::chrono::steady_clock::now() < next) return;
    next += std::chrono::seconds(1);
    std::fprintf(stderr, "\rc-exact: %lu of %lu samples, %lu wrong ", all.covered(), samples, all.wrong());
}

void tell(const counts &all) {
    std::printf("c-exact: %lu samples of %lu pieces, by reach 0, 1, 8 and 9 %lu, %lu, %lu and %lu;", all.covered(),
                all.pieces, all.samples[0], all.samples[1], all.samples[2], all.samples[3]);
    std::printf(" wrong: %lu not met, %lu of the other winding, %lu cut off, %lu farther\n", all.unmet, all.of_winding,
                all.cut, all.farther);
    std::printf("c-exact: %lu of %lu boxes and %lu of %lu meshes are occluded, %lu outside;", all.hidden_boxes,
                all.boxes, all.hidden_meshes, all.meshes, all.outside);
    std::printf(" wrong: %lu places seen, %lu points on the screen\n", all.seen, all.strayed);
    std::printf("c-exact: %lu frames beside the calls, %lu unlike\n", all.frames, all.unlike);
}

} // namespace

int main(int count, char **words) {
    const unsigned long samples = count > 1 ? std::strtoul(words[1], nullptr, 10) : 10000000;
    source.seed(count > 2 ? std::strtoul(words[2], nullptr, 10) : 1);
    changed = count > 3 ? std::atoi(words[3]) : by_nothing;
    counts all;
    while (all.covered() < samples) {
        scene s = {};
        for (int k = 0; k < 50; k++) {
            if (make_scene(s)) look_at_pieces(s, all);
        }
        camera c;
        double away;
        if (make_walls(s, c, away)) look_at_objects(s, c, away, all);
        tell_progress(all, samples);
    }
    tell(all);
    if (changed != by_nothing) return all.wrong() != 0 ? 0 : 1;
    const bool is_whole = all.hidden_boxes != 0 && all.hidden_meshes != 0 && all.outside != 0 && all.frames != 0;
    return road().is_seen_through() && is_whole && all.wrong() + all.unlike == 0 ? 0 : 1;
}
