// How long maskcull.hpp takes, beside the calls that it makes: the least of some rounds.
//
//     c++ -std=c++17 -O2 -Iinclude examples/c/measure.cpp crates/maskcull_c/out/libmaskcull_c.a -o measure && ./measure
//
// Triangles are 20,000 random ones, each with corners of its own, and as many as a grid of 100 by 100 squares, both
// with a near distance of 0.1; boxes are asked behind a wall that fills the screen of 1280 by 720 pixels. Measure on a
// quiet machine.
#include "maskcull.hpp"

#include <chrono>
#include <cstdio>

namespace {

struct point {
    float x, y, z;
};

struct mesh {
    std::vector<point> points;
    std::vector<maskcull_triangle> triangles;
    std::vector<std::uint32_t> indices;

    void add(std::uint32_t a, std::uint32_t b, std::uint32_t c) {
        triangles.push_back({a, b, c});
        indices.insert(indices.end(), {a, b, c});
    }

    maskcull::mesh_view view() const {
        return {points.data(), sizeof(point), points.size(), indices.data(), indices.size()};
    }
};

// x and y as they are, and w from z.
constexpr float to_clip[16] = {1, 0, 0, 0, 0, 1.75f, 0, 0, 0, 0, 0, 1, 0, 0, 0, 0};
constexpr int rounds = 100;

std::uint64_t state = 1;
// What calls answer is added up here, so that none is left out by the compiler.
volatile unsigned answers;

float between(float low, float high) {
    state = state * 6364136223846793005u + 1442695040888963407u;
    return low + (high - low) * (static_cast<float>(state >> 40) / static_cast<float>(1 << 24));
}

mesh separate_triangles() {
    mesh made;
    for (std::uint32_t k = 0; k < 20000; k++) {
        const float x = between(-80, 80), y = between(-20, 20), z = between(2, 160);
        for (int corner = 0; corner < 3; corner++) {
            made.points.push_back({x + between(-4, 4), y + between(-4, 4), z + between(-1, 1)});
        }
        made.add(3 * k, 3 * k + 1, 3 * k + 2);
    }
    return made;
}

mesh grid() {
    mesh made;
    constexpr std::uint32_t side = 100;
    for (std::uint32_t j = 0; j <= side; j++) {
        for (std::uint32_t i = 0; i <= side; i++) {
            const float away = 3 + static_cast<float>(j), across = 2 * static_cast<float>(i) - 100;
            made.points.push_back({across, -2 - 0.1f * away + between(-0.3f, 0.3f), away});
        }
    }
    for (std::uint32_t j = 0; j < side; j++) {
        for (std::uint32_t i = 0; i < side; i++) {
            const std::uint32_t a = j * (side + 1) + i;
            made.add(a, a + 1, a + side + 1);
            made.add(a + 1, a + side + 2, a + side + 1);
        }
    }
    return made;
}

// The least time of some work done so often, in ns.
template <class Work> double least(int times, const Work &work) {
    double best = 1e300;
    for (int round = 0; round < rounds; round++) {
        const auto begin = std::chrono::steady_clock::now();
        for (int k = 0; k < times; k++) work();
        const std::chrono::duration<double, std::nano> taken = std::chrono::steady_clock::now() - begin;
        best = std::min(best, taken.count() / times);
    }
    return best;
}

void print_mesh(maskcull::frame &frame, const char *what, const mesh &m) {
    maskcull::occluders made;
    std::vector<maskcull::clip_point> points;
    for (const point &p : m.points) points.push_back({p.x, 1.75f * p.y, p.z});
    const double by_points = least(1, [&] {
        frame.prepare_into(made, points.data(), points.size(), m.triangles.data(), m.triangles.size());
    });
    const double by_matrix = least(1, [&] { frame.prepare_into(made, to_clip, m.view()); });
    const double drawn = least(1, [&] {
        frame.clear();
        answers = answers + frame.draw(to_clip, m.view());
    });
    std::printf("%-22s %6.3f ms to prepare, %6.3f through a matrix, %6.3f with clearing and drawing\n", what,
                by_points / 1e6, by_matrix / 1e6, drawn / 1e6);
}

void print_box(const maskcull::frame &frame, const char *what, const point &low, const point &high) {
    const float first[3] = {low.x, low.y, low.z}, last[3] = {high.x, high.y, high.z};
    const double taken = least(2000, [&] {
        answers = answers + static_cast<unsigned>(frame.test_aabb(to_clip, first, last));
    });
    std::printf("test_aabb of a box %-28s %6.1f ns\n", what, taken);
}

} // namespace

int main() {
    auto frame = maskcull::frame::make(1280, 720, 0.1f);
    if (!frame) return 1;
    print_mesh(*frame, "20,000 triangles", separate_triangles());
    print_mesh(*frame, "as a grid", grid());
    mesh wall;
    wall.points = {{-9, 9, 4}, {9, 9, 4}, {9, -9, 4}, {-9, -9, 4}};
    wall.add(0, 1, 2), wall.add(0, 2, 3);
    frame->clear();
    if (frame->draw(to_clip, wall.view()) != MASKCULL_DONE) return 1;
    print_box(*frame, "hidden, of 26 by 27 pixels", {-0.2f, -0.2f, 10}, {0.2f, 0.2f, 11});
    print_box(*frame, "hidden, of 64 by 66 pixels", {-0.5f, -0.52f, 10}, {0.5f, 0.52f, 11});
    print_box(*frame, "before the wall", {-0.2f, -0.2f, 2}, {0.2f, 0.2f, 3});
    print_box(*frame, "beside the screen", {40, -1, 10}, {41, 1, 11});
    print_box(*frame, "behind the eye", {-1, -1, -9}, {1, 1, -8});
    return 0;
}
