// Random scenes by the calls of Intel's library: bins on threads leave the picture of whole draws; what TestRect calls
// occluded is farther than the picture at each pixel whose middle lies in the rectangle; and what TestTriangles calls
// occluded is so for test_mesh of a frame in which the same was drawn.
//
// usage: intel-random [SCENES]
#include "MaskedOcclusionCulling.h"

#include <cstdio>
#include <cstdlib>
#include <random>
#include <thread>
#include <vector>

using MOC = MaskedOcclusionCulling;

namespace {

constexpr unsigned triangle_count = 200, room_of_one = 9 * 600;

struct counts {
    int rects = 0, hidden_rects = 0, meshes = 0, hidden_meshes = 0, faults = 0;
};

struct scene {
    unsigned width, height, columns, rows;
    float near_distance;
    MOC::BackfaceWinding winding;
    std::vector<float> vertices;
    std::vector<unsigned> triangles;
};

std::mt19937 source(1);

unsigned below(unsigned bound) { return static_cast<unsigned>(source() % bound); }

float number(float low, float high) { return std::uniform_real_distribution<float>(low, high)(source); }

// A triangle around a place of the screen, at a distance that is up to a fifth more or less at each corner.
void add_triangle(scene &s, float x, float y, float w, float size) {
    for (int corner = 0; corner < 3; corner++) {
        const float v = w * number(0.8f, 1.25f);
        s.triangles.push_back(static_cast<unsigned>(s.vertices.size() / 4));
        for (const float it : {v * (x + number(-size, size)), v * (y + number(-size, size)), 0.f, v}) {
            s.vertices.push_back(it);
        }
    }
}

scene make_scene(int number_of_scene) {
    scene s = {320 - below(9), 184 - below(9), 1 + below(4), 1 + below(4), number(0.01f, 2),
               static_cast<MOC::BackfaceWinding>(number_of_scene % 3), {}, {}};
    for (unsigned k = 0; k < triangle_count; k++) {
        add_triangle(s, number(-2, 2), number(-2, 2), s.near_distance * std::exp(number(-1, 6)), 1);
    }
    return s;
}

void draw_by_bins(MOC *moc, const scene &s) {
    std::vector<float> room(room_of_one * s.columns * s.rows);
    std::vector<MOC::TriList> lists;
    for (unsigned k = 0; k < s.columns * s.rows; k++) lists.push_back({room_of_one / 9, 0, &room[room_of_one * k]});
    moc->BinTriangles(s.vertices.data(), s.triangles.data(), triangle_count, lists.data(), s.columns, s.rows, nullptr,
                      s.winding);
    unsigned bin_width, bin_height;
    moc->ComputeBinWidthHeight(s.columns, s.rows, bin_width, bin_height);
    std::vector<std::thread> threads;
    for (unsigned k = 0; k < lists.size(); k++) {
        threads.emplace_back([&, k] {
            const unsigned x = k % s.columns, y = k / s.columns;
            const unsigned right = x + 1 == s.columns ? s.width : (x + 1) * bin_width;
            const unsigned lower = y + 1 == s.rows ? s.height : (y + 1) * bin_height;
            const MOC::ScissorRect part(static_cast<int>(x * bin_width), static_cast<int>(y * bin_height),
                                        static_cast<int>(right), static_cast<int>(lower));
            moc->RenderTrilist(lists[k], &part);
        });
    }
    for (std::thread &thread : threads) thread.join();
}

void test_rect(const MOC *moc, const scene &s, const std::vector<float> &depths, counts &c) {
    const float x0 = number(-1.2f, 1.1f), y0 = number(-1.2f, 1.1f), w = s.near_distance * std::exp(number(0, 7));
    const float x1 = x0 + number(0, 0.5f), y1 = y0 + number(0, 0.5f);
    c.rects++;
    if (moc->TestRect(x0, y0, x1, y1, w) != MOC::OCCLUDED) return;
    c.hidden_rects++;
    for (unsigned y = 0; y < s.height; y++) {
        const double middle_y = 1 - (y + 0.5) / s.height * 2;
        if (middle_y < y0 || middle_y > y1) continue;
        for (unsigned x = 0; x < s.width; x++) {
            const double middle_x = (x + 0.5) / s.width * 2 - 1;
            if (middle_x < x0 || middle_x > x1 || depths[y * s.width + x] > 1 / w) continue;
            c.faults++, std::printf("a rectangle is in sight at %u, %u\n", x, y);
        }
    }
}

void test_mesh(const MOC *moc, const maskcull::frame &frame, float near_distance, counts &c) {
    scene s = {};
    const float x = number(-1.2f, 1.2f), y = number(-1.2f, 1.2f), w = near_distance * std::exp(number(1, 7));
    for (int k = 0; k < 4; k++) add_triangle(s, x, y, w, 0.2f);
    c.meshes++;
    if (moc->TestTriangles(s.vertices.data(), s.triangles.data(), 4) != MOC::OCCLUDED) return;
    c.hidden_meshes++;
    // x, y and w stand in the places of x, y and z
    std::vector<float> points;
    for (std::size_t k = 0; k < s.vertices.size(); k += 4) {
        for (const std::size_t part : {0, 1, 3}) points.push_back(s.vertices[k + part]);
    }
    const float matrix[16] = {1, 0, 0, 0, 0, 1, 0, 0, 0, 0, 0, 1, 0, 0, 0, 0};
    const maskcull::mesh_view mesh(points.data(), 12, points.size() / 3, s.triangles.data(), s.triangles.size());
    if (frame.test_mesh(matrix, mesh) == maskcull::verdict::occluded) return;
    c.faults++, std::printf("triangles are in sight\n");
}

void run(int number_of_scene, MOC *whole, MOC *binned, counts &c) {
    const scene s = make_scene(number_of_scene);
    std::vector<float> depths(s.width * s.height), others(s.width * s.height);
    for (MOC *it : {whole, binned}) {
        it->SetResolution(s.width, s.height), it->SetNearClipPlane(s.near_distance), it->ClearBuffer();
    }
    whole->RenderTriangles(s.vertices.data(), s.triangles.data(), triangle_count, nullptr, s.winding);
    draw_by_bins(binned, s);
    whole->ComputePixelDepthBuffer(depths.data(), false), binned->ComputePixelDepthBuffer(others.data(), false);
    if (std::memcmp(depths.data(), others.data(), depths.size() * sizeof(float)) != 0) {
        c.faults++, std::printf("scene %d: %u by %u bins leave another picture\n", number_of_scene, s.columns, s.rows);
    }
    auto frame = maskcull::frame::make(s.width, s.height, s.near_distance, static_cast<maskcull_winding>(s.winding));
    std::vector<maskcull::clip_point> points;
    for (std::size_t k = 0; k < s.vertices.size(); k += 4) {
        points.push_back({s.vertices[k], s.vertices[k + 1], s.vertices[k + 3]});
    }
    std::vector<maskcull_triangle> triangles;
    for (unsigned k = 0; k < triangle_count; k++) triangles.push_back({3 * k, 3 * k + 1, 3 * k + 2});
    frame->draw(frame->prepare(points.data(), points.size(), triangles.data(), triangles.size()));
    for (int k = 0; k < 200; k++) test_rect(whole, s, depths, c);
    for (int k = 0; k < 50; k++) test_mesh(whole, *frame, s.near_distance, c);
}

} // namespace

int main(int argument_count, char **arguments) {
    const int scenes = argument_count > 1 ? std::atoi(arguments[1]) : 1000;
    MOC *whole = MOC::Create(), *binned = MOC::Create();
    counts c;
    for (int k = 0; k < scenes; k++) run(k, whole, binned, c);
    MOC::Destroy(whole), MOC::Destroy(binned);
    std::printf("%d scenes; of %d rectangles %d are occluded, of %d meshes %d; %d faults\n", scenes, c.rects,
                c.hidden_rects, c.meshes, c.hidden_meshes, c.faults);
    return c.faults != 0 || c.hidden_rects == 0 || c.hidden_meshes == 0;
}
