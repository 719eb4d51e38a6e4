// Holds what maskcull.hpp makes of matrices and meshes against the true triangles, boxes and meshes, for random ones:
// of occluders that are cut at the guard, or since they are seen too much from their edge, too.
//
//     checks/c-matrices     by each compiler, or
//     c++ -std=gnu++17 -O2 -Iinclude checks/c-matrices.cpp crates/maskcull_c/out/libmaskcull_c.a -o matrices
//     ./matrices [SCENES] [SEED]
//
// A scene is a window of any size and one triangle, or a parallelogram of two, and a box and a mesh behind it or about
// it, each taken through a matrix of whole numbers with the determinant 1 or -1. Half of the frames got their near
// distance by a clearing. So all coordinates are whole numbers that floats hold as they
// are, and the truth is reckoned in whole numbers of 128 bits, whatever flags this file is compiled with. In the
// matrix's row for z there is no number: it may not be read. Looked at is
//
// - each sample of the screen: what is held there is at most 16777215 times 8/7 of the near distance, where the
//   library's near plane stands, over the distance at which the true plane, or the nearer of two, is seen through the
//   sample; and the sample is seen within the true triangle, or one of two, or beside it by no more than the margin
//   that a box is asked wider by;
// - each box and mesh that is called occluded: each corner of it has a point of the true triangle or parallelogram
//   strictly in front of it, on the ray from the eye, at the near distance or farther; so all between them has. A
//   corner beside the screen doesn't count, nor one within two pixels of its edge, where an occluder may end a little
//   beside the true one;
// - each box and mesh that is called outside: no corner of it is seen in the screen.
//
// With -DWRONG=1 occluders are rounded without being moved away from the eye, with -DWRONG=2 boxes and meshes are asked
// without a margin: then there have to be wrong ones.
#include "maskcull.hpp"

#include <cstdio>
#include <cstdlib>

#ifndef WRONG
#define WRONG 0
#endif

namespace {

using wide = __int128;
using maskcull::verdict;

struct vertex {
    std::int64_t x, y, w;
};

// Rows for x, y and w, and what is added.
struct matrix {
    std::int64_t rows[3][3];
    vertex moved;
};

struct scene {
    std::int64_t width, height, near_w;
    matrix to_clip, from_clip;
    std::vector<vertex> points;   // before the matrix
    std::vector<vertex> vertices; // behind it
    std::vector<maskcull_triangle> triangles;
};

struct counts {
    unsigned long scenes, triangles, cut, samples, boxes, hidden_boxes, meshes, hidden_meshes, outside, beside, wrong;
};

std::uint64_t state;

std::int64_t below(std::int64_t end) {
    state = state * 6364136223846793005u + 1442695040888963407u;
    return static_cast<std::int64_t>((state >> 20) % static_cast<std::uint64_t>(end));
}

std::int64_t between(std::int64_t low, std::int64_t high) { return low + below(high - low + 1); }

bool is_one_of(int count) { return below(count) == 0; }

// Small ones about as often as great ones, up to 2^bits.
std::int64_t of_some_size(int bits) { return 1 + below(std::int64_t{1} << between(1, bits)); }

std::int64_t size(const vertex &v) {
    const auto of = [](std::int64_t number) { return number < 0 ? -number : number; };
    return std::max({of(v.x), of(v.y), of(v.w)});
}

vertex product(const matrix &m, const vertex &v) {
    const auto row = [&](int k) { return m.rows[k][0] * v.x + m.rows[k][1] * v.y + m.rows[k][2] * v.w; };
    return {row(0) + m.moved.x, row(1) + m.moved.y, row(2) + m.moved.w};
}

// Some shears one after another, and their inverses the other way round.
void make_matrices(scene &s) {
    matrix to = {{{1, 0, 0}, {0, 1, 0}, {0, 0, 1}}, {0, 0, 0}}, from = to;
    for (int k = 0; k < 3; k++) {
        const int row = static_cast<int>(below(3)), other = (row + 1 + static_cast<int>(below(2))) % 3;
        const std::int64_t by = between(-2, 2);
        for (int column = 0; column < 3; column++) to.rows[row][column] += by * to.rows[other][column];
        for (int line = 0; line < 3; line++) from.rows[line][other] -= by * from.rows[line][row];
    }
    if (is_one_of(2)) {
        for (int k = 0; k < 3; k++) {
            std::swap(to.rows[0][k], to.rows[2][k]);
            std::swap(from.rows[k][0], from.rows[k][2]);
        }
    }
    const std::int64_t most = of_some_size(18);
    to.moved = {between(-most, most), between(-most, most), between(-most, most)};
    s.to_clip = to, s.from_clip = from;
}

vertex before_matrix(const scene &s, const vertex &v) {
    const vertex &by = s.to_clip.moved;
    return product(s.from_clip, {v.x - by.x, v.y - by.y, v.w - by.w});
}

// Of a point only so many bits are kept that floats hold it, and sums of three.
void shorten(std::vector<vertex> &points) {
    std::int64_t most = 1, step = 1;
    for (const vertex &p : points) most = std::max(most, size(p));
    while (most / step >= 1 << 22) step *= 2;
    for (vertex &p : points) p = {p.x / step * step, p.y / step * step, p.w / step * step};
}

wide determinant(const vertex &p, const vertex &q, const vertex &r) {
    return static_cast<wide>(p.x) * (q.y * r.w - q.w * r.y) + static_cast<wide>(p.y) * (q.w * r.x - q.x * r.w)
           + static_cast<wide>(p.w) * (q.x * r.y - q.y * r.x);
}

// Whether a point of the triangle lies in front of p, at the near distance or farther: p is a sum of the three corners,
// each some positive number of times, and more than once in all.
bool is_behind(const vertex &p, const vertex &v0, const vertex &v1, const vertex &v2, std::int64_t near_w) {
    wide whole = determinant(v0, v1, v2);
    wide a = determinant(p, v1, v2), b = determinant(v0, p, v2), c = determinant(v0, v1, p);
    if (whole < 0) whole = -whole, a = -a, b = -b, c = -c;
    return whole != 0 && a >= 0 && b >= 0 && c >= 0 && a + b + c > whole && p.w * whole >= near_w * (a + b + c);
}

bool is_behind(const scene &s, const vertex &p) {
    for (const maskcull_triangle &t : s.triangles) {
        if (is_behind(p, s.vertices[t.a], s.vertices[t.b], s.vertices[t.c], s.near_w)) return true;
    }
    return false;
}

// Whether a point is seen in the screen, so many pixels or more from its edge.
bool is_seen(const scene &s, const vertex &p, std::int64_t pixels) {
    const auto reaches = [&](std::int64_t coordinate, std::int64_t across) {
        return (coordinate < 0 ? -coordinate : coordinate) * across <= p.w * (across - 2 * pixels);
    };
    return p.w >= s.near_w && reaches(p.x, s.width) && reaches(p.y, s.height);
}

// Whether a nearness above 0 is at most that of the plane of the triangle, where the pixel's middle sees it.
bool is_far_enough(const scene &s, const maskcull_triangle &t, std::int64_t px, std::int64_t py,
                   std::uint32_t nearness) {
    const vertex &v0 = s.vertices[t.a], &v1 = s.vertices[t.b], &v2 = s.vertices[t.c];
    const vertex ray = {(2 * px + 1 - s.width) * s.height, (s.height - 2 * py - 1) * s.width, s.width * s.height};
    wide whole = determinant(v0, v1, v2);
    wide sum = determinant(ray, v1, v2) + determinant(v0, ray, v2) + determinant(v0, v1, ray);
    if (whole < 0) whole = -whole, sum = -sum;
    // the ray meets the plane at ray * whole / sum, whose w is width * height * whole / sum
    return whole != 0 && 7 * nearness * whole * (s.width * s.height) <= 16777215 * 8 * s.near_w * sum;
}

// Whether a pixel's middle sees the triangle, or passes it by at most so many pixels as an edge may move: the ray is a
// sum of the corners, each some number of times that is above 0, or falls below it by what such a step changes.
bool is_within(const scene &s, const maskcull_triangle &t, std::int64_t px, std::int64_t py) {
    const vertex &v0 = s.vertices[t.a], &v1 = s.vertices[t.b], &v2 = s.vertices[t.c];
    const vertex ray = {(2 * px + 1 - s.width) * s.height, (s.height - 2 * py - 1) * s.width, s.width * s.height};
    const wide sign = determinant(v0, v1, v2) < 0 ? -1 : 1;
    const vertex edges[3][2] = {{v0, v1}, {v1, v2}, {v2, v0}};
    for (const vertex(&e)[2] : edges) {
        const wide x = static_cast<wide>(e[0].y) * e[1].w - static_cast<wide>(e[0].w) * e[1].y;
        const wide y = static_cast<wide>(e[0].w) * e[1].x - static_cast<wide>(e[0].x) * e[1].w;
        // by 65/1024 of a pixel and 1/2048 of the tiles: a pixel is 2 height of the ray's x, and 2 width of its y
        const wide across = s.height * (130 + (s.width + 7) / 8 * 8) * (x < 0 ? -x : x);
        const wide down = s.width * (130 + (s.height + 3) / 4 * 4) * (y < 0 ? -y : y);
        if (sign * determinant(ray, e[0], e[1]) * 1024 < -(across + down)) return false;
    }
    return true;
}

void look_at_samples(const scene &s, const maskcull::frame &frame, counts &all) {
    const auto &tiles = frame.tiles();
    const std::int64_t columns = (s.width + 31) / 32;
    for (std::int64_t py = 0; py < s.height; py++) {
        for (std::int64_t px = 0; px < s.width; px++) {
            const auto tile = static_cast<std::size_t>(py / 8 * columns + px / 32);
            const auto subtile = static_cast<std::uint32_t>(py % 8 / 4 * 4 + px % 32 / 8);
            const auto held = maskcull_subtile(tiles.data(), tiles.size(), tile, subtile);
            const bool is_masked = (held.mask >> (py % 4 * 8 + px % 8) & 1) != 0;
            const std::uint32_t nearness = is_masked ? held.working : held.reference;
            if (nearness == 0) continue;
            all.samples++;
            bool is_right = false, is_seen_there = false;
            for (const maskcull_triangle &t : s.triangles) {
                is_right |= is_far_enough(s, t, px, py, nearness);
                is_seen_there |= is_within(s, t, px, py);
            }
            all.wrong += is_right && is_seen_there ? 0 : 1;
            all.beside += is_seen_there ? 0 : 1;
        }
    }
}

// The floats that are handed over: a matrix by rows or by columns, and vertices with other things between them.
struct handed {
    maskcull::options chosen;
    float numbers[16];
    std::vector<float> floats;
    std::size_t stride;
    std::vector<std::uint16_t> short_indices;
    std::vector<std::uint32_t> long_indices;

    handed(const scene &s, const maskcull::options &o, const std::vector<vertex> &points,
           const std::vector<maskcull_triangle> &triangles)
        : chosen(o), stride(static_cast<std::size_t>(between(3, 8)) * 4) {
        const std::uint32_t no_number = 0x7fc00000;
        float none;
        std::memcpy(&none, &no_number, sizeof none);
        for (int row = 0; row < 4; row++) {
            const int from = row == 3 ? 2 : row;
            for (int column = 0; column < 4; column++) {
                const bool is_by_rows = o.matrices == maskcull::matrix_layout::rows;
                float &place = numbers[is_by_rows ? 4 * row + column : 4 * column + row];
                const std::int64_t moved[3] = {s.to_clip.moved.x, s.to_clip.moved.y, s.to_clip.moved.w};
                const std::int64_t number = column == 3 ? moved[from] : s.to_clip.rows[from][column];
                std::memcpy(&place, &none, sizeof place);
                if (row != 2) place = static_cast<float>(row == 1 && o.y_is_down ? -number : number);
            }
        }
        const std::size_t step = stride / 4;
        floats.assign(points.size() * step, 0);
        for (std::size_t k = 0; k < points.size(); k++) {
            for (std::size_t j = 3; j < step; j++) std::memcpy(&floats[k * step + j], &none, sizeof none);
            floats[k * step] = static_cast<float>(points[k].x);
            floats[k * step + 1] = static_cast<float>(points[k].y);
            floats[k * step + 2] = static_cast<float>(points[k].w);
        }
        for (const maskcull_triangle &t : triangles) {
            for (const std::uint32_t number : {t.a, t.b, t.c}) {
                short_indices.push_back(static_cast<std::uint16_t>(number));
                long_indices.push_back(number);
            }
        }
    }

    maskcull::mesh_view mesh(bool is_short) const {
        const std::size_t count = floats.size() * 4 / stride;
        return is_short ? maskcull::mesh_view(floats.data(), stride, count, short_indices.data(), short_indices.size())
                        : maskcull::mesh_view(floats.data(), stride, count, long_indices.data(), long_indices.size());
    }
};

// Without a margin: the rectangle around points as it is.
verdict asked_without_margin(const scene &s, const maskcull::frame &frame, const std::vector<vertex> &points) {
    double left = 1e9, top = 1e9, right = -1e9, bottom = -1e9, nearest = 1e9;
    const double scale = 1024 / (8.0 / 7 * static_cast<double>(s.near_w));
    for (const vertex &v : points) {
        const auto w = static_cast<double>(v.w);
        if (!(w * scale >= 1024)) return verdict::visible;
        const double x = static_cast<double>(s.width) / 2 * (1 + static_cast<double>(v.x) / w);
        const double y = static_cast<double>(s.height) / 2 * (1 - static_cast<double>(v.y) / w);
        left = std::min(left, x), right = std::max(right, x), top = std::min(top, y), bottom = std::max(bottom, y);
        nearest = std::min(nearest, w * scale);
    }
    const auto whole = [](double number) {
        return static_cast<std::int32_t>(std::floor(std::min(std::max(number, -1e9), 1e9)));
    };
    const maskcull_area area = {whole(left + 0.5), whole(top + 0.5), whole(right + 0.5), whole(bottom + 0.5)};
    const auto &tiles = frame.tiles();
    const auto answer = maskcull_test(&frame.setup(), tiles.data(), tiles.size(), &area, whole(nearest));
    return answer == MASKCULL_OCCLUDED ? verdict::occluded : verdict::visible;
}

// Counts whether a verdict is wrong of something with these corners.
void judge(const scene &s, const std::vector<vertex> &corners, verdict found, counts &all) {
    bool is_right = true;
    for (const vertex &corner : corners) {
        if (found == verdict::occluded) is_right &= is_behind(s, corner) || !is_seen(s, corner, 2);
        if (found == verdict::outside) is_right &= !is_seen(s, corner, 0);
    }
    all.outside += found == verdict::outside ? 1 : 0;
    all.wrong += is_right ? 0 : 1;
}

// A place behind a point of the occluder, or near it, and how far from there a box or a mesh reaches.
vertex place_about(const scene &s, std::int64_t &most) {
    const vertex &v0 = s.vertices[0], &v1 = s.vertices[1], &v2 = s.vertices[2];
    const std::int64_t a = below(64), b = below(65 - a), c = 64 - a - b, away = between(60, 160);
    const auto mixed = [&](std::int64_t k0, std::int64_t k1, std::int64_t k2) {
        return (a * k0 + b * k1 + c * k2) / 64 * away / 64;
    };
    const vertex middle = {mixed(v0.x, v1.x, v2.x), mixed(v0.y, v1.y, v2.y), mixed(v0.w, v1.w, v2.w)};
    most = 1 + (middle.w < 0 ? 0 : middle.w / (8 * of_some_size(6)));
    return before_matrix(s, middle);
}

vertex moved_by(const vertex &p, std::int64_t most) {
    return {p.x + between(-most, most), p.y + between(-most, most), p.w + between(-most, most)};
}

void look_at_box(const scene &s, const maskcull::frame &frame, const handed &h, counts &all) {
    std::int64_t most;
    const vertex middle = place_about(s, most), half = moved_by({0, 0, 0}, most);
    std::vector<vertex> ends = {{middle.x - half.x, middle.y - half.y, middle.w - half.w},
                                {middle.x + half.x, middle.y + half.y, middle.w + half.w}};
    shorten(ends);
    std::vector<vertex> corners;
    for (int k = 0; k < 8; k++) {
        corners.push_back(product(s.to_clip, {ends[k & 1].x, ends[k >> 1 & 1].y, ends[k >> 2].w}));
    }
    float places[2][3];
    for (int k = 0; k < 2; k++) {
        places[k][0] = static_cast<float>(ends[k].x), places[k][1] = static_cast<float>(ends[k].y);
        places[k][2] = static_cast<float>(ends[k].w);
    }
    const verdict found = WRONG == 2 ? asked_without_margin(s, frame, corners)
                                     : frame.test_aabb(h.numbers, places[0], places[1]);
    all.boxes++;
    all.hidden_boxes += found == verdict::occluded ? 1 : 0;
    judge(s, corners, found, all);
}

void look_at_mesh(const scene &s, const maskcull::frame &frame, const maskcull::options &o, counts &all) {
    std::int64_t most;
    const vertex middle = place_about(s, most);
    std::vector<vertex> points, corners;
    for (int k = 0; k < 5; k++) points.push_back(moved_by(middle, most));
    shorten(points);
    for (const vertex &p : points) corners.push_back(product(s.to_clip, p));
    const std::vector<maskcull_triangle> triangles = {{0, 1, 2}, {2, 1, 3}};
    const handed h(s, o, points, triangles);
    corners.pop_back(); // the last point belongs to no triangle
    const verdict found = WRONG == 2 ? asked_without_margin(s, frame, corners)
                                     : frame.test_mesh(h.numbers, h.mesh(is_one_of(2)));
    all.meshes++;
    all.hidden_meshes += found == verdict::occluded ? 1 : 0;
    judge(s, corners, found, all);
}

// Three corners on the screen and beside it, in front of the near plane, and now and then behind it.
void make_near_corners(scene &s) {
    s.near_w = of_some_size(14);
    const std::int64_t w = s.near_w + of_some_size(18), spread = 1 + below(w);
    for (int k = 0; k < 3; k++) {
        const std::int64_t depth = is_one_of(12) ? between(-w, w) : w + between(-spread, spread) / 2;
        const std::int64_t reach = 1 + (depth < 0 ? -depth : depth) * between(8, 24) / 8;
        s.vertices.push_back({between(-reach, reach), between(-reach, reach), depth});
    }
}

// Past the guard on some sides: it is 2^14 near distances.
void make_far_corners(scene &s) {
    s.near_w = of_some_size(8);
    const std::int64_t guard = 16384 * s.near_w;
    for (int k = 0; k < 3; k++) {
        const std::int64_t reach = guard * between(1, 64) / between(1, 64);
        s.vertices.push_back({between(-reach, reach), between(-reach, reach),
                              is_one_of(2) ? between(-reach, reach) : s.near_w + of_some_size(16)});
    }
}

// Like a ground: nearly through the eye, and far to all sides.
void make_flat_corners(scene &s) {
    s.near_w = of_some_size(10);
    const std::int64_t high = of_some_size(12), far = s.near_w * of_some_size(16);
    const bool is_wall = is_one_of(2);
    for (int k = 0; k < 3; k++) {
        const std::int64_t across = between(-far, far), up = below(3) - high;
        const std::int64_t w = between(-far / 4, far);
        s.vertices.push_back(is_wall ? vertex{up, across, w} : vertex{across, up, w});
    }
}

// False where floats can't hold it, or the truth has too many digits.
bool make_scene(scene &s) {
    s = {between(1, 96), between(1, 48), 1, {}, {}, {}, {}, {}};
    if (is_one_of(32)) s.width = 2048;
    const std::int64_t kind = below(4);
    kind == 0 ? make_far_corners(s) : kind == 1 ? make_flat_corners(s) : make_near_corners(s);
    make_matrices(s);
    for (const vertex &v : s.vertices) s.points.push_back(before_matrix(s, v));
    shorten(s.points);
    s.triangles.push_back({0, 1, 2});
    if (is_one_of(2)) {
        const vertex &a = s.points[0], &b = s.points[1], &c = s.points[2];
        s.points.push_back({a.x + c.x - b.x, a.y + c.y - b.y, a.w + c.w - b.w});
        s.triangles.push_back({0, 2, 3});
    }
    s.vertices.clear();
    for (const vertex &p : s.points) s.vertices.push_back(product(s.to_clip, p));
    return std::all_of(s.vertices.begin(), s.vertices.end(), [](const vertex &v) { return size(v) < 1 << 27; })
           && size(s.to_clip.moved) < 1 << 24;
}

// Rounds without moving away: what the matrix makes of each vertex, to the nearest unit.
void round_wrongly(const scene &s, maskcull::occluders &made) {
    const double scale = 1024 / (8.0 / 7 * static_cast<double>(s.near_w));
    const auto whole = [&](std::int64_t number) {
        return static_cast<std::int32_t>(std::lround(static_cast<double>(number) * scale));
    };
    for (std::size_t k = 0; k < s.vertices.size(); k++) {
        const vertex &v = s.vertices[k];
        if (static_cast<double>(size(v)) * scale < 16e6) made.vertices[k] = {whole(v.x), whole(v.y), whole(v.w)};
    }
}

void look_at(const scene &s, counts &all) {
    maskcull::options chosen;
    chosen.matrices = is_one_of(2) ? maskcull::matrix_layout::rows : maskcull::matrix_layout::columns;
    chosen.y_is_down = is_one_of(2);
    const bool is_cleared = is_one_of(2);
    auto frame = maskcull::frame::make(static_cast<std::uint32_t>(s.width), static_cast<std::uint32_t>(s.height),
                                       is_cleared ? 7.0f : static_cast<float>(s.near_w), chosen);
    if (is_cleared) frame->clear(static_cast<float>(s.near_w));
    const handed h(s, chosen, s.points, s.triangles);
    maskcull::occluders made;
    frame->prepare_into(made, h.numbers, h.mesh(is_one_of(2)));
    if (WRONG == 1) round_wrongly(s, made);
    if ((WRONG == 1 ? frame->draw(made) : frame->draw(h.numbers, h.mesh(true))) != MASKCULL_DONE) std::exit(1);
    all.scenes++;
    all.triangles += s.triangles.size();
    all.cut += made.vertices.size() > s.vertices.size() ? 1 : 0;
    look_at_samples(s, *frame, all);
    for (int k = 0; k < 3; k++) {
        look_at_box(s, *frame, h, all);
        look_at_mesh(s, *frame, chosen, all);
    }
}

} // namespace

int main(int count, char **words) {
    const long scenes = count > 1 ? std::atol(words[1]) : 20000;
    state = count > 2 ? std::strtoull(words[2], nullptr, 10) : 1;
    counts all = {};
    scene s;
    while (all.scenes < static_cast<unsigned long>(scenes)) {
        if (make_scene(s)) look_at(s, all);
    }
    std::printf("%lu scenes, %lu triangles, %lu scenes with cuts, %lu samples that hold a depth;\n"
                "%lu of %lu boxes and %lu of %lu meshes are called occluded, %lu outside;\n"
                "%lu samples are beside what is drawn there; %lu wrong\n",
                all.scenes, all.triangles, all.cut, all.samples, all.hidden_boxes, all.boxes, all.hidden_meshes,
                all.meshes, all.outside, all.beside, all.wrong);
    return all.wrong == 0 ? 0 : 1;
}
