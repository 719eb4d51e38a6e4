// Holds orthographic frames of maskcull.hpp against each sample of random scenes, reckoned in whole numbers.
//
//     checks/c-cells     by each compiler, or
//     c++ -std=gnu++17 -O2 -Iinclude checks/c-cells.cpp crates/maskcull_c/out/libmaskcull_c.a -o cells
//     ./cells [SCENES] [SEED]
//
// A scene is a window of any size, some triangles across it, which may reach past its edges and past the near and the
// far plane, and boxes. x, y and z are whole numbers of a unit, 4096 of which are half the window or the depths. Looked
// at is
//
// - each sample of the window: what is held there is no nearer than a triangle there, or within a sixteenth of a pixel
//   of there, that lies behind the near plane;
// - each box: whether it is hidden at all of its samples by what is shown in front of it. One that is called occluded
//   and isn't is wrong, but where each sample that sees it is within a sixteenth of a pixel of a triangle's edge. One
//   that is called outside has no sample.
//
// Nine of ten boxes that are hidden have to be found, but in a quarter of the scenes: these have small windows, and
// walls that lean or are steep to the sight. With -DWRONG=1 a frame in perspective is asked with the same distance
// everywhere, which hides nothing; with -DWRONG=2 the depths run the other way: then it has to fail.
#include "maskcull.hpp"

#include <cstdio>
#include <cstdlib>

#ifndef WRONG
#define WRONG 0
#endif

namespace {

using wide = __int128;
using maskcull::verdict;

constexpr std::int64_t unit = 4096;

struct vertex {
    std::int64_t x, y, z;
};

struct triangle {
    vertex corners[3];
    // a normal that looks towards the eye, and what it is times a corner
    std::int64_t nx, ny, nz;
    wide level;
};

struct counts {
    unsigned long scenes, triangles, samples, boxes, outside, hidden, found, beside, wrong;
};

std::uint64_t state;

std::int64_t below(std::int64_t end) {
    state = state * 6364136223846793005u + 1442695040888963407u;
    return static_cast<std::int64_t>((state >> 20) % static_cast<std::uint64_t>(end));
}

std::int64_t between(std::int64_t low, std::int64_t high) { return low + below(high - low + 1); }

struct scene {
    std::int64_t width, height;
    bool is_odd; // small, with walls that lean, or are steep to the sight
    std::vector<triangle> triangles;

    // the middle of a pixel is this over the width, and over the height, in units
    std::int64_t across(std::int64_t px) const { return (2 * px + 1 - width) * unit; }
    std::int64_t up(std::int64_t py) const { return (height - 2 * py - 1) * unit; }
};

triangle triangle_of(const vertex &a, const vertex &b, const vertex &c) {
    triangle t = {{a, b, c}, 0, 0, 0, 0};
    const vertex p = {b.x - a.x, b.y - a.y, b.z - a.z}, q = {c.x - a.x, c.y - a.y, c.z - a.z};
    t.nx = p.y * q.z - p.z * q.y, t.ny = p.z * q.x - p.x * q.z, t.nz = p.x * q.y - p.y * q.x;
    if (t.nz < 0) t.nx = -t.nx, t.ny = -t.ny, t.nz = -t.nz;
    t.level = static_cast<wide>(t.nx) * a.x + static_cast<wide>(t.ny) * a.y + static_cast<wide>(t.nz) * a.z;
    return t;
}

// How a sample lies to a triangle: outside its edges, within them, or no further from one than a sixteenth of a pixel.
struct place {
    bool is_within, is_near, is_at_edge;
};

place place_of(const scene &s, const triangle &t, std::int64_t px, std::int64_t py) {
    place found = {true, true, false};
    const vertex &a = t.corners[0], &b = t.corners[1], &c = t.corners[2];
    const std::int64_t area = (b.x - a.x) * (c.y - a.y) - (b.y - a.y) * (c.x - a.x), sign = area < 0 ? -1 : 1;
    for (int k = 0; k < 3; k++) {
        const vertex &from = t.corners[k], &to = t.corners[(k + 1) % 3];
        const std::int64_t x = to.x - from.x, y = to.y - from.y;
        // times width and height, in square units
        const std::int64_t inside = sign * (x * (s.up(py) * s.width - from.y * s.width * s.height)
                                            - y * (s.across(px) * s.height - from.x * s.width * s.height));
        // a sixteenth of a pixel is unit / 8 over the width or the height
        const double slope_x = static_cast<double>(y) * static_cast<double>(s.height);
        const double slope_y = static_cast<double>(x) * static_cast<double>(s.width);
        const double step = std::sqrt(slope_x * slope_x + slope_y * slope_y) * (unit / 8);
        found.is_within &= inside >= 0;
        found.is_near &= static_cast<double>(inside) >= -step;
        found.is_at_edge |= std::fabs(static_cast<double>(inside)) <= step;
    }
    return found;
}

// The plane's z at a sample is a fraction: above this over what stands below.
wide depth_above(const scene &s, const triangle &t, std::int64_t px, std::int64_t py) {
    return t.level * (s.width * s.height) - static_cast<wide>(t.nx) * (s.across(px) * s.height)
           - static_cast<wide>(t.ny) * (s.up(py) * s.width);
}

wide depth_below(const scene &s, const triangle &t) { return static_cast<wide>(t.nz) * (s.width * s.height); }

struct sample {
    double depth; // of what is nearest there, or past the far plane
    bool is_at_edge;
};

// What is shown at each sample, and what is held there against it.
std::vector<sample> samples_of(const scene &s, const maskcull::frame &frame, counts &all) {
    std::vector<sample> made;
    const std::int64_t columns = frame.setup().width + 31;
    for (std::int64_t py = 0; py < s.height; py++) {
        for (std::int64_t px = 0; px < s.width; px++) {
            const auto tile = static_cast<std::size_t>(py / 8 * (columns / 32) + px / 32);
            const auto subtile = static_cast<std::uint32_t>(py % 8 / 4 * 4 + px % 32 / 8);
            const auto held = maskcull_subtile(frame.tiles().data(), frame.tiles().size(), tile, subtile);
            const bool is_masked = (held.mask >> (py % 4 * 8 + px % 8) & 1) != 0;
            const std::int64_t nearness = is_masked ? held.working : held.reference;
            sample here = {2, false};
            bool is_right = nearness == 0;
            for (const triangle &t : s.triangles) {
                const place at = place_of(s, t, px, py);
                here.is_at_edge |= at.is_at_edge && at.is_near;
                if (!at.is_near) continue;
                const wide above = depth_above(s, t, px, py), under = depth_below(s, t);
                if (above < 0) continue;
                if (at.is_within && above <= under * unit) {
                    here.depth = std::min(here.depth, static_cast<double>(above) / static_cast<double>(under) / unit);
                }
                // nearness is 16777215 (1 - 15/16 depth) / 64 at most
                is_right |= 1024 * nearness * under * unit <= 16777215 * (16 * under * unit - 15 * above);
            }
            all.samples += nearness != 0 ? 1 : 0;
            all.wrong += is_right ? 0 : 1;
            made.push_back(here);
        }
    }
    return made;
}

// Takes x, y and z of whole numbers to clip space, by a depth range.
void matrix_to(float (&m)[16], const maskcull::options &chosen) {
    const auto range = *chosen.orthographic;
    const float numbers[4][4] = {{1.0f / unit, 0, 0, 0},
                                 {0, (chosen.y_is_down ? -1.0f : 1.0f) / unit, 0, 0},
                                 {0, 0, (range.at_far - range.at_near) / unit, range.at_near},
                                 {0, 0, 0, 1}};
    for (int j = 0; j < 4; j++) {
        for (int k = 0; k < 4; k++) {
            m[chosen.matrices == maskcull::matrix_layout::rows ? 4 * j + k : 4 * k + j] = numbers[j][k];
        }
    }
}

void look_at_box(const scene &s, const maskcull::frame &frame, const float (&m)[16], const std::vector<sample> &seen,
                 counts &all) {
    const std::int64_t x = between(-unit, unit), y = between(-unit, unit), z = between(unit / 10, unit * 19 / 20);
    const std::int64_t a = between(8, unit / 5), b = between(8, unit / 5), deep = unit / 50;
    const float low[3] = {static_cast<float>(x - a), static_cast<float>(y - b), static_cast<float>(z)};
    const float high[3] = {static_cast<float>(x + a), static_cast<float>(y + b), static_cast<float>(z + deep)};
    const verdict found = frame.test_aabb(m, low, high);
    unsigned long count = 0, open = 0, open_within = 0;
    for (std::int64_t py = 0; py < s.height; py++) {
        for (std::int64_t px = 0; px < s.width; px++) {
            const std::int64_t dx = s.across(px) - x * s.width, dy = s.up(py) - y * s.height;
            if (std::abs(dx) > a * s.width || std::abs(dy) > b * s.height) continue;
            const sample &it = seen[static_cast<std::size_t>(py * s.width + px)];
            const bool is_open = !(it.depth * unit < static_cast<double>(z));
            count++, open += is_open ? 1 : 0, open_within += is_open && !it.is_at_edge ? 1 : 0;
        }
    }
    all.outside += found == verdict::outside ? 1 : 0;
    if (found == verdict::outside && count > 0) all.wrong++;
    if (count == 0) return;
    all.boxes++;
    all.hidden += open == 0 && !s.is_odd ? 1 : 0;
    all.found += open == 0 && !s.is_odd && found == verdict::occluded ? 1 : 0;
    if (found != verdict::occluded) return;
    all.beside += open != 0 && open_within == 0 ? 1 : 0;
    all.wrong += open_within != 0 ? 1 : 0;
}

// A parallelogram about the window, more or less across the sight.
void add_wall(scene &s) {
    const std::int64_t x = between(-unit, unit), y = between(-unit, unit), z = between(unit / 20, unit * 9 / 10);
    const std::int64_t a = between(unit / 20, unit * 7 / 10), b = between(unit / 20, unit * 7 / 10);
    const std::int64_t lean = s.is_odd ? unit / 10 : 0, steep = s.is_odd && below(3) == 0 ? unit : unit / 20;
    const vertex p = {a, between(-lean, lean), between(-steep, steep)};
    const vertex q = {between(-lean, lean), b, between(-steep, steep)};
    const auto corner = [&](int j, int k) {
        return vertex{x + j * p.x + k * q.x, y + j * p.y + k * q.y, z + j * p.z + k * q.z};
    };
    const vertex corners[4] = {corner(-1, -1), corner(1, -1), corner(1, 1), corner(-1, 1)};
    s.triangles.push_back(triangle_of(corners[0], corners[1], corners[2]));
    s.triangles.push_back(triangle_of(corners[0], corners[2], corners[3]));
}

void look_at(counts &all) {
    scene s = {between(300, 340), between(170, 190), below(4) == 0, {}};
    if (s.is_odd) s.width = between(1, 200), s.height = between(1, 120);
    for (int k = 0; k < 30; k++) add_wall(s);
    maskcull::options chosen;
    const maskcull::depth_range ranges[] = {{-1, 1}, {0, 1}, {1, 0}, {8, 24}};
    chosen.orthographic = ranges[below(4)];
    chosen.y_is_down = below(2) == 0;
    chosen.matrices = below(2) == 0 ? maskcull::matrix_layout::rows : maskcull::matrix_layout::columns;
    float m[16];
    matrix_to(m, chosen);
    if (WRONG == 1) chosen.orthographic.reset();
    if (WRONG == 2) std::swap(chosen.orthographic->at_near, chosen.orthographic->at_far);
    auto frame = maskcull::frame::make(static_cast<std::uint32_t>(s.width), static_cast<std::uint32_t>(s.height), 0.1f,
                                       chosen);
    std::vector<float> points;
    std::vector<std::uint32_t> numbers;
    const auto add = [&](const vertex &v) {
        points.insert(points.end(), {static_cast<float>(v.x), static_cast<float>(v.y), static_cast<float>(v.z)});
    };
    for (std::size_t k = 0; k < s.triangles.size(); k += 2) {
        const auto first = static_cast<std::uint32_t>(points.size() / 3);
        for (const vertex &v : s.triangles[k].corners) add(v);
        add(s.triangles[k + 1].corners[2]);
        numbers.insert(numbers.end(), {first, first + 1, first + 2, first, first + 2, first + 3});
    }
    const maskcull::mesh_view walls(points.data(), 12, points.size() / 3, numbers.data(), numbers.size());
    if (!frame || frame->draw(m, walls) != MASKCULL_DONE) std::exit(1);
    all.scenes++, all.triangles += s.triangles.size();
    const auto seen = samples_of(s, *frame, all);
    for (int k = 0; k < 50; k++) look_at_box(s, *frame, m, seen, all);
}

} // namespace

int main(int count, char **words) {
    const long scenes = count > 1 ? std::atol(words[1]) : 2000;
    state = count > 2 ? std::strtoull(words[2], nullptr, 10) : 1;
    counts all = {};
    for (long k = 0; k < scenes; k++) look_at(all);
    std::printf("%lu orthographic scenes, %lu triangles, %lu samples that hold a depth; of %lu boxes %lu are hidden,\n"
                "%lu of these are found; %lu are called occluded and seen at an edge; %lu wrong\n",
                all.scenes, all.triangles, all.samples, all.boxes, all.hidden, all.found, all.beside, all.wrong);
    return all.wrong == 0 && all.found * 10 >= all.hidden * 9 ? 0 : 1;
}
