// Records a frame with maskcull.hpp as a scene, and prints the verdict that each question was answered with, as lines
// of a report: checks/c-recorder compares them with what `maskcull cull` tells of the scene.
//
//     ./recorder SCENE
//
// Drawn are a ground that reaches past the guard and walls across it, each as a mesh through a matrix, some of them by
// bands and some from pieces, with windings that change from draw to draw, onto a frame whose size is rounded up;
// tested are boxes and meshes before the walls, behind them, beside the screen and around the eye.
#include "maskcull.hpp"

#include <cstdio>

namespace {

std::uint64_t state = 1;

float between(float low, float high) {
    state = state * 6364136223846793005u + 1442695040888963407u;
    return low + (high - low) * (static_cast<float>(state >> 40) / static_cast<float>(1 << 24));
}

constexpr float to_clip[16] = {1, 0, 0, 0, 0, 1.75f, 0, 0, 0, 0, 0, 1, 0, 0, 0, 0};
constexpr std::uint16_t quad[] = {0, 1, 2, 0, 2, 3};

struct wall {
    float corners[4][3];

    wall(float x0, float x1, float y0, float y1, float z)
        : corners{{x0, y1, z}, {x1, y1, z}, {x1, y0, z}, {x0, y0, z}} {}

    maskcull::mesh_view mesh() const { return {corners, sizeof corners[0], 4, quad, 6}; }
};

// In two slices, each onto all rows.
bool draw_pieces(maskcull::frame &frame, const maskcull::occluders &drawn, maskcull_winding winding) {
    const std::size_t all = drawn.triangles.size(), slices[2][2] = {{0, all / 2}, {all / 2, all - all / 2}};
    std::vector<maskcull_piece> pieces(2 * all);
    for (const auto &[first, triangles] : slices) {
        std::size_t count;
        if (frame.set_up(drawn, first, triangles, pieces.data(), pieces.size(), count, winding) != MASKCULL_DONE
            || frame.draw_pieces(0, frame.row_count(), pieces.data(), count) != MASKCULL_DONE) {
            return false;
        }
    }
    return true;
}

bool draw_all(maskcull::frame &frame) {
    const float ground[4][3] = {{-1e4f, -2, -1e4f}, {1e4f, -2, -1e4f}, {1e4f, -2, 1e4f}, {-1e4f, -2, 1e4f}};
    bool is_drawn = frame.draw(to_clip, {ground, sizeof ground[0], 4, quad, 6}) == MASKCULL_DONE;
    maskcull::occluders many, others;
    for (int k = 0; k < 60; k++) {
        const float z = between(3, 60), x = between(-z, z);
        // some of them turn their back
        const float left = x - between(1, 6), right = x + between(1, 6);
        const wall one(k % 5 == 0 ? right : left, k % 5 == 0 ? left : right, -2, between(-1, 4), z);
        if (k % 3 == 0) {
            const auto winding = static_cast<maskcull_winding>(k / 3 % 3);
            is_drawn = is_drawn && frame.draw(to_clip, one.mesh(), winding) == MASKCULL_DONE;
        } else {
            frame.prepare_more_into(k % 3 == 1 ? many : others, to_clip, one.mesh());
        }
    }
    const std::uint32_t half = frame.row_count() / 2;
    const auto dropped = MASKCULL_DROPS_COUNTERCLOCKWISE;
    return is_drawn && frame.draw_band(0, half, many, dropped) == MASKCULL_DONE
           && frame.draw_band(half, frame.row_count() - half, many, dropped) == MASKCULL_DONE
           && draw_pieces(frame, others, MASKCULL_KEEPS_BOTH);
}

unsigned ask_all(const maskcull::frame &frame) {
    unsigned occluded = 0;
    for (int k = 0; k < 2000; k++) {
        const float z = between(-20, 120), x = between(-1.5f, 1.5f) * z, y = between(-4, 3), size = between(0.1f, 2);
        const float low[3] = {x - size, y - size, z - size}, high[3] = {x + size, y + size, z + size};
        const wall one(x - size, x + size, y - size, y + size, z);
        occluded += frame.test_aabb(to_clip, low, high) == maskcull::verdict::occluded ? 1 : 0;
        occluded += frame.test_mesh(to_clip, one.mesh()) == maskcull::verdict::occluded ? 1 : 0;
    }
    return occluded;
}

const char *word_of(std::uint32_t answer) {
    return answer == MASKCULL_OCCLUDED ? "occluded" : answer == MASKCULL_OUTSIDE ? "outside" : "visible";
}

} // namespace

int main(int count, char **words) {
    auto frame = maskcull::frame::make(637, 359, 0.1f);
    maskcull::recorder recorder;
    if (count != 2 || !frame) return 2;
    frame->record_to(&recorder);
    frame->clear();
    if (!draw_all(*frame) || ask_all(*frame) == 0 || !recorder.save(words[1])) return 1;
    const auto &answers = recorder.answers();
    for (std::size_t k = 0; k < answers.size(); k++) std::printf("%zu %s\n", k, word_of(answers[k]));
    return 0;
}
