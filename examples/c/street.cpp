// A street with walls along it and across it, and crates: how many are hidden as a camera moves along.
//
//     c++ -std=c++17 -Iinclude examples/c/street.cpp crates/maskcull_c/out/libmaskcull_c.a -pthread -o street
//     ./street
//
// Each frame is drawn three times: by one thread, by four threads onto a quarter of the rows of tiles each, and from
// pieces that four threads set up and then draw onto these rows. The tiles have to be the same byte for byte.
//
// Lengths are metres; x is counted from the camera's lane to the right, y from the eye upwards, z along the street. The
// camera looks along z, so w is z less the camera's place. The view is 90 degrees wide and the screen twice as wide as
// high, so a point lies at x / w and 2 y / w, both from -1 to 1.
//
// Drawn are a wall along the left side (x = -7), one along the right (x = 3), and four across the left lanes (x from
// -7 to -2) at z = 20, 40, 60 and 80. They reach from 3 below the eye to 5 above it, the crates from 1.6 to 0.6 below:
// a wall in front of a crate reaches below it and above it on the screen. So only x and w decide. For crate k = 0 .. 3
// of each row, with w the distance of its front:
//
// - Behind the cross walls: x from -6 to -5, z from 25 + 20 k on, 2 deep. With its wall at d = w - 5 in front the
//   crate is seen from -6 / w to -5 / (w + 2), and the wall from -7 / d to -2 / d. It hides all of the crate where
//   2 / d is below 5 / (d + 7), so where d is above 14 / 3. At d = 2 the wall ends at -1, the edge of the screen, and
//   the crate is seen beside it, nearer than the left wall. Behind the camera the wall hides nothing.
// - Behind the left wall: x from -11 to -9, z from 32 + 20 k on, 2 deep. The wall has w = 7 / t at the place -t, and
//   the crate lies at t from 9 / (w + 2) on: in front of it the wall is at 7 (w + 2) / 9 at most, which is below w
//   where w is above 7. With w below 7 the crate lies past the screen's edge, or behind the camera.
// - Behind the right wall: x from 5 to 7, at the same z. The same with 3 (w + 2) / 5, and 3 in place of 7.
// - In the camera's own lanes: x from 1.5 to 2.5, z from 30 + 20 k on, 1 deep. The right wall at t has w = 3 / t, and
//   the crate ends at t = 2.5 / w: the wall is further away, so these are never hidden.
//
//     the camera at                  0     10    18    22    30    38
//     d of the first wall in front   20    10    2     18    10    2
//     w of the first crate in front of the second row
//                                    32    22    14    10    2     14
//     hidden behind cross walls      4     4     3     3     3     2
//     hidden behind the left wall    4     4     4     4     3     3
//     behind the right wall          4     4     4     4     3     3
//     in all                         12    12    11    11    9     8
#include "maskcull.hpp"

#include <cstdio>
#include <cstring>
#include <thread>

using maskcull::clip_point;

namespace {

struct place {
    float x, y, z;
};

struct block {
    place low, high;
};

struct street {
    std::vector<place> corners;
    std::vector<maskcull_triangle> triangles;
    std::vector<block> crates;
};

constexpr float foot = -3, head = 5;
constexpr unsigned thread_count = 4;

// An upright wall over a line on the ground.
void add_wall(street &s, float x0, float z0, float x1, float z1) {
    const auto first = static_cast<std::uint32_t>(s.corners.size());
    s.corners.insert(s.corners.end(), {{x0, head, z0}, {x1, head, z1}, {x1, foot, z1}, {x0, foot, z0}});
    s.triangles.push_back({first, first + 1, first + 2});
    s.triangles.push_back({first, first + 2, first + 3});
}

void add_crates(street &s, float x0, float x1, float first_z, float depth) {
    for (int k = 0; k < 4; k++) {
        const float z = first_z + 20.0f * static_cast<float>(k);
        s.crates.push_back({{x0, -1.6f, z}, {x1, -0.6f, z + depth}});
    }
}

street make_street() {
    street s;
    add_wall(s, -7, -10, -7, 120);
    add_wall(s, 3, -10, 3, 120);
    for (const float z : {20.0f, 40.0f, 60.0f, 80.0f}) add_wall(s, -7, z, -2, z);
    add_crates(s, -6, -5, 25, 2);
    add_crates(s, -11, -9, 32, 2);
    add_crates(s, 5, 7, 32, 2);
    add_crates(s, 1.5f, 2.5f, 30, 1);
    return s;
}

clip_point seen(const place &p, float camera) {
    return {p.x, 2 * p.y, p.z - camera};
}

bool is_crate_hidden(const maskcull::frame &frame, const block &crate, float camera) {
    clip_point corners[8];
    for (unsigned k = 0; k < 8; k++) {
        const place corner = {k & 1 ? crate.low.x : crate.high.x, k & 2 ? crate.low.y : crate.high.y,
                              k & 4 ? crate.low.z : crate.high.z};
        corners[k] = seen(corner, camera);
    }
    return frame.is_hidden(corners, 8);
}

maskcull::occluders walls_seen(const maskcull::frame &frame, const street &s, float camera) {
    std::vector<clip_point> points;
    for (const place &corner : s.corners) points.push_back(seen(corner, camera));
    return frame.prepare(points.data(), points.size(), s.triangles.data(), s.triangles.size());
}

// Shares some things out: each thread has those from its share of the way to the next one's. Whether all is done.
template <class Work> bool share(std::uint32_t things, const Work &work) {
    std::uint32_t answers[thread_count];
    std::vector<std::thread> threads;
    for (std::uint32_t k = 0; k < thread_count; k++) {
        const std::uint32_t first = things * k / thread_count, end = things * (k + 1) / thread_count;
        threads.emplace_back([&answers, &work, k, first, end] { answers[k] = work(k, first, end - first); });
    }
    for (std::thread &thread : threads) thread.join();
    return std::count(answers, answers + thread_count, std::uint32_t{MASKCULL_DONE}) == thread_count;
}

bool draw_by_threads(maskcull::frame &frame, const maskcull::occluders &walls) {
    return share(frame.row_count(), [&](std::uint32_t, std::uint32_t first_row, std::uint32_t rows) {
        return frame.draw_band(first_row, rows, walls);
    });
}

bool draw_by_pieces(maskcull::frame &frame, const maskcull::occluders &walls) {
    std::vector<maskcull_piece> pieces[thread_count];
    const auto count = static_cast<std::uint32_t>(walls.triangles.size());
    const auto set_up = [&](std::uint32_t k, std::uint32_t first, std::uint32_t triangles) {
        std::size_t made = 0;
        pieces[k].resize(2 * triangles);
        const auto status = frame.set_up(walls, first, triangles, pieces[k].data(), pieces[k].size(), made);
        pieces[k].resize(made);
        return status;
    };
    const auto draw = [&](std::uint32_t, std::uint32_t first_row, std::uint32_t rows) {
        std::uint32_t status = MASKCULL_DONE;
        for (const auto &slice : pieces) {
            if (status == MASKCULL_DONE) status = frame.draw_pieces(first_row, rows, slice.data(), slice.size());
        }
        return status;
    };
    return share(count, set_up) && share(frame.row_count(), draw);
}

bool are_same(const maskcull::frame &one, const maskcull::frame &other) {
    const std::size_t bytes = one.tiles().size() * sizeof(maskcull_tile);
    return one.tiles().size() == other.tiles().size()
           && std::memcmp(one.tiles().data(), other.tiles().data(), bytes) == 0;
}

} // namespace

int main() {
    const street s = make_street();
    auto by_four = maskcull::frame::make(1280, 640, 0.1f), by_one = maskcull::frame::make(1280, 640, 0.1f);
    auto by_pieces = maskcull::frame::make(1280, 640, 0.1f);
    if (!by_four || !by_one || !by_pieces) return 1;
    for (const float camera : {0.0f, 10.0f, 18.0f, 22.0f, 30.0f, 38.0f}) {
        const maskcull::occluders walls = walls_seen(*by_four, s, camera);
        for (maskcull::frame *frame : {&*by_four, &*by_one, &*by_pieces}) frame->clear();
        if (by_one->draw(walls) != MASKCULL_DONE || !draw_by_threads(*by_four, walls)
            || !draw_by_pieces(*by_pieces, walls)) {
            return 1;
        }
        const auto hidden = std::count_if(s.crates.begin(), s.crates.end(), [&](const block &crate) {
            return is_crate_hidden(*by_four, crate, camera);
        });
        std::printf("at %d: %d of %d crates are hidden; tiles of four threads and of one: %s\n",
                    static_cast<int>(camera), static_cast<int>(hidden), static_cast<int>(s.crates.size()),
                    are_same(*by_four, *by_one) && are_same(*by_pieces, *by_one) ? "the same" : "not the same");
    }
    return 0;
}
