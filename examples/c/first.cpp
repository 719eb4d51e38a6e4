// A mesh through a matrix hides one box of three.
//
//     c++ -std=c++17 -Iinclude examples/c/first.cpp crates/maskcull_c/out/libmaskcull_c.a -o first && ./first
//
// The camera looks along -z, as in OpenGL, 90 degrees to each side, so x and y in clip space are x and y of the world
// and w is -z. The wall stands 4 in front of it and is as wide as the left half of the screen: of the boxes, 8 away,
// the first is behind it, the second beside it, and the third is behind the camera.
#include "maskcull.hpp"

#include <cstdio>

struct vertex {
    float position[3], color[4];
};

int main() {
    const vertex wall[] = {{{-4, 4, -4}, {}}, {{0, 4, -4}, {}}, {{0, -4, -4}, {}}, {{-4, -4, -4}, {}}};
    const std::uint16_t indices[] = {0, 1, 2, 0, 2, 3};
    const float to_clip[16] = {1, 0, 0, 0, 0, 1, 0, 0, 0, 0, -1, -1, 0, 0, -0.2f, 0}; // column by column
    const float boxes[3][2][3] = {{{-5, -1, -9}, {-3, 1, -8}}, {{3, -1, -9}, {5, 1, -8}}, {{-5, -1, 8}, {-3, 1, 9}}};
    std::optional<maskcull::frame> frame = maskcull::frame::make(1280, 720, 0.1f); // near distance 0.1
    if (!frame) return 1;
    frame->clear(); // each frame
    if (frame->draw(to_clip, maskcull::mesh_view(wall, sizeof(vertex), 4, indices, 6)) != MASKCULL_DONE) return 1;
    for (const auto &box : boxes) {
        const maskcull::verdict found = frame->test_aabb(to_clip, box[0], box[1]);
        std::puts(found == maskcull::verdict::occluded  ? "occluded"
                  : found == maskcull::verdict::outside ? "outside"
                                                        : "visible");
    }
}
