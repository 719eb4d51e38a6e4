// Holds what maskcull.hpp draws and what it calls hidden against the true triangles and boxes, for random ones.
//
//     c++ -std=gnu++17 -O2 -Iinclude checks/c-planes.cpp crates/maskcull_c/out/libmaskcull_c.a -o planes
//     ./planes [SCENES] [SEED]
//
// A scene is one triangle, or a parallelogram of two, and boxes behind it and about it. All coordinates are whole
// numbers below 2^24, so floats hold them as they are, and the truth is reckoned in whole numbers of 128 bits, whatever
// flags this file is compiled with. Looked at is
//
// - each sample of the screen: what is held there is at most 16777215 times 8/7 of the near distance, where the
//   library's near plane stands, over the distance at which the true plane, or the nearer of two, is seen through the
//   sample;
// - each box that is called hidden: each corner, and so each point, of it has a point of the triangle or parallelogram
//   strictly in front of it, on the ray from the eye, at the near distance or farther. A corner beside the screen
//   doesn't count, nor one within two pixels of its edge, where an occluder may end a little beside the true one.
//
// It also counts how many boxes whose corners are all behind are called hidden: rounding costs some of these.
#include "maskcull.hpp"

#include <cstdio>
#include <cstdlib>

namespace {

using wide = __int128;
using maskcull::clip_point;

struct vertex {
    std::int64_t x, y, w;
};

struct scene {
    std::int64_t width, height, near_w;
    std::vector<vertex> vertices;
    std::vector<maskcull_triangle> triangles;
};

struct counts {
    unsigned long drawn, samples, boxes, behind, hidden, sharp, wrong;
};

std::uint64_t state;

std::int64_t below(std::int64_t end) {
    state = state * 6364136223846793005u + 1442695040888963407u;
    return static_cast<std::int64_t>((state >> 20) % static_cast<std::uint64_t>(end));
}

std::int64_t between(std::int64_t low, std::int64_t high) { return low + below(high - low + 1); }

// Small ones about as often as great ones, up to 2^bits.
std::int64_t of_some_size(int bits) { return 1 + below(std::int64_t{1} << between(1, bits)); }

clip_point point_of(const vertex &v) {
    return {static_cast<float>(v.x), static_cast<float>(v.y), static_cast<float>(v.w)};
}

wide determinant(const vertex &p, const vertex &q, const vertex &r) {
    return static_cast<wide>(p.x) * (q.y * r.w - q.w * r.y) + static_cast<wide>(p.y) * (q.w * r.x - q.x * r.w)
           + static_cast<wide>(p.w) * (q.x * r.y - q.y * r.x);
}

// Whether a point of the triangle lies in front of p, at the near distance or farther: p is a sum of the three corners,
// each some positive number of times, and more than once in all.
bool is_behind(const vertex &p, const vertex &v0, const vertex &v1, const vertex &v2, std::int64_t near_w) {
    wide whole = determinant(v0, v1, v2);
    wide a = determinant(p, v1, v2), b = determinant(v0, p, v2), c = determinant(v0, v1, p);
    if (whole < 0) whole = -whole, a = -a, b = -b, c = -c;
    return whole != 0 && a >= 0 && b >= 0 && c >= 0 && a + b + c > whole && p.w * whole >= near_w * (a + b + c);
}

bool is_behind(const scene &s, const vertex &p) {
    for (const maskcull_triangle &t : s.triangles) {
        if (is_behind(p, s.vertices[t.a], s.vertices[t.b], s.vertices[t.c], s.near_w)) return true;
    }
    return false;
}

// Whether a point is seen two pixels or more within the screen.
bool is_well_inside(const scene &s, const vertex &p) {
    const auto reaches = [](std::int64_t coordinate, std::int64_t w, std::int64_t pixels) {
        return (coordinate < 0 ? -coordinate : coordinate) * pixels <= w * (pixels - 4);
    };
    return p.w > 0 && reaches(p.x, p.w, s.width) && reaches(p.y, p.w, s.height);
}

// Whether a nearness above 0 is at most that of the plane of the triangle, where the pixel's middle sees it.
bool is_far_enough(const scene &s, const maskcull_triangle &t, std::int64_t px, std::int64_t py,
                   std::uint32_t nearness) {
    const vertex &v0 = s.vertices[t.a], &v1 = s.vertices[t.b], &v2 = s.vertices[t.c];
    const vertex ray = {(2 * px + 1 - s.width) * s.height, (s.height - 2 * py - 1) * s.width, s.width * s.height};
    wide whole = determinant(v0, v1, v2);
    wide sum = determinant(ray, v1, v2) + determinant(v0, ray, v2) + determinant(v0, v1, ray);
    if (whole < 0) whole = -whole, sum = -sum;
    // the ray meets the plane at ray * whole / sum, whose w is width * height * whole / sum
    return whole != 0 && 7 * nearness * whole * (s.width * s.height) <= 16777215 * 8 * s.near_w * sum;
}

void look_at_samples(const scene &s, const maskcull::frame &frame, counts &all) {
    const auto &tiles = frame.tiles();
    const std::int64_t columns = (s.width + 31) / 32;
    for (std::int64_t py = 0; py < s.height; py++) {
        for (std::int64_t px = 0; px < s.width; px++) {
            const auto tile = static_cast<std::size_t>(py / 8 * columns + px / 32);
            const auto subtile = static_cast<std::uint32_t>(py % 8 / 4 * 4 + px % 32 / 8);
            const auto held = maskcull_subtile(tiles.data(), tiles.size(), tile, subtile);
            const bool is_masked = (held.mask >> (py % 4 * 8 + px % 8) & 1) != 0;
            const std::uint32_t nearness = is_masked ? held.working : held.reference;
            if (nearness == 0) continue;
            all.samples++;
            bool is_right = false;
            for (const maskcull_triangle &t : s.triangles) is_right |= is_far_enough(s, t, px, py, nearness);
            all.wrong += is_right ? 0 : 1;
        }
    }
}

// A box about a place behind a point of the triangle, or near it.
void make_box(const scene &s, vertex (&corners)[8]) {
    const vertex &v0 = s.vertices[0], &v1 = s.vertices[1], &v2 = s.vertices[2];
    const std::int64_t a = below(64), b = below(65 - a), c = 64 - a - b, away = between(60, 160);
    const auto mixed = [&](std::int64_t k0, std::int64_t k1, std::int64_t k2) {
        return (a * k0 + b * k1 + c * k2) / 64 * away / 64;
    };
    const vertex middle = {mixed(v0.x, v1.x, v2.x), mixed(v0.y, v1.y, v2.y), mixed(v0.w, v1.w, v2.w)};
    const std::int64_t most = 1 + (middle.w < 0 ? 0 : middle.w / 16);
    const vertex half = {below(most), below(most), below(most)};
    for (int k = 0; k < 8; k++) {
        corners[k] = {middle.x + (k & 1 ? half.x : -half.x), middle.y + (k & 2 ? half.y : -half.y),
                      middle.w + (k & 4 ? half.w : -half.w)};
    }
}

void look_at_boxes(const scene &s, const maskcull::frame &frame, counts &all) {
    for (int n = 0; n < 40; n++) {
        vertex corners[8];
        clip_point points[8];
        make_box(s, corners);
        for (int k = 0; k < 8; k++) points[k] = point_of(corners[k]);
        bool are_behind = true, is_right = true;
        for (const vertex &corner : corners) {
            const bool is_so = is_behind(s, corner);
            are_behind &= is_so;
            is_right &= is_so || !is_well_inside(s, corner);
        }
        const bool is_hidden = frame.is_hidden(points, 8);
        all.boxes++;
        all.behind += are_behind ? 1 : 0;
        all.hidden += is_hidden ? 1 : 0;
        all.sharp += is_hidden && are_behind ? 1 : 0;
        all.wrong += is_hidden && !is_right ? 1 : 0;
    }
}

// Three or four corners on the screen and beside it, in front of the near plane, and now and then behind it.
scene make_scene() {
    scene s = {8 * between(4, 40), 4 * between(8, 40), of_some_size(14), {}, {}};
    if (below(8) == 0) s.width = 2048;
    const std::int64_t w = s.near_w + of_some_size(18), spread = 1 + below(w);
    for (int k = 0; k < 3; k++) {
        const std::int64_t depth = below(12) == 0 ? between(-w, w) : w + between(-spread, spread) / 2;
        const std::int64_t reach = 1 + (depth < 0 ? -depth : depth) * between(8, 24) / 8;
        s.vertices.push_back({between(-reach, reach), between(-reach, reach), depth});
    }
    s.triangles.push_back({0, 1, 2});
    if (below(2) == 0) {
        const vertex &a = s.vertices[0], &b = s.vertices[1], &c = s.vertices[2];
        s.vertices.push_back({a.x + c.x - b.x, a.y + c.y - b.y, a.w + c.w - b.w});
        s.triangles.push_back({0, 2, 3});
    }
    return s;
}

void look_at(const scene &s, counts &all) {
    auto frame = maskcull::frame::make(static_cast<std::uint32_t>(s.width), static_cast<std::uint32_t>(s.height),
                                       static_cast<float>(s.near_w));
    std::vector<clip_point> points;
    for (const vertex &v : s.vertices) points.push_back(point_of(v));
    const auto made = frame->prepare(points.data(), points.size(), s.triangles.data(), s.triangles.size());
    if (frame->draw(made) != MASKCULL_DONE) std::exit(1);
    all.drawn += made.triangles.size();
    look_at_samples(s, *frame, all);
    look_at_boxes(s, *frame, all);
}

} // namespace

int main(int count, char **words) {
    const long scenes = count > 1 ? std::atol(words[1]) : 10000;
    state = count > 2 ? std::strtoull(words[2], nullptr, 10) : 1;
    counts all = {0, 0, 0, 0, 0, 0, 0};
    for (long k = 0; k < scenes; k++) look_at(make_scene(), all);
    std::printf("%ld scenes, %lu triangles drawn, %lu samples that hold a depth; of %lu boxes %lu are behind, %lu of\n"
                "these and %lu in all are called hidden; %lu wrong\n",
                scenes, all.drawn, all.samples, all.boxes, all.behind, all.sharp, all.hidden, all.wrong);
    return all.wrong == 0 ? 0 : 1;
}
