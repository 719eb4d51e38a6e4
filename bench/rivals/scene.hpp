// A scene as docs/FORMAT.md has it, of version 1 or 2.
#pragma once
#include <array>
#include <cstddef>
#include <cstdint>
#include <cstdio>
#include <stdexcept>
#include <vector>

namespace rivals {

constexpr int TILE_WIDTH = 32, TILE_HEIGHT = 8;
enum Winding : std::uint8_t { KEEPS_BOTH, DROPS_CLOCKWISE, DROPS_COUNTERCLOCKWISE };
enum Kind : std::uint8_t { RECTANGLE, BOX, MESH };
enum class Verdict : std::uint8_t { visible, occluded, outside };

using Vertex = std::array<std::int32_t, 3>;
using Triangle = std::array<std::uint32_t, 3>;
// Rows of four for x, y and w.
using Camera = std::array<std::int32_t, 12>;

struct Batch {
    std::uint32_t count;
    Winding winding;
};

struct Object {
    Kind kind;
    std::array<std::int32_t, 6> numbers;
};

struct Scene {
    int width, height, near_distance;
    bool wide;
    std::vector<Vertex> vertices;
    std::vector<Triangle> occluders, object_triangles;
    std::vector<Batch> batches;
    std::vector<Object> objects;
    std::vector<Camera> cameras;
};

// What one frame gave.
struct Frame {
    std::size_t pieces = 0;
    std::vector<Verdict> verdicts;
};

// Takes numbers from bytes, lowest byte first.
class Bytes {
public:
    explicit Bytes(std::vector<unsigned char> bytes) : bytes_(std::move(bytes)) {}

    std::uint32_t take(int size) {
        if (bytes_.size() - at_ < std::size_t(size)) throw std::runtime_error("the scene has too few bytes");
        std::uint32_t number = 0;
        for (int k = 0; k < size; ++k) number |= std::uint32_t(bytes_[at_++]) << 8 * k;
        return number;
    }

    template <class Number, std::size_t count>
    std::vector<std::array<Number, count>> table(std::size_t rows) {
        std::vector<std::array<Number, count>> all;
        for (; rows > 0; --rows) {
            all.emplace_back();
            for (Number& number : all.back()) number = Number(take(4));
        }
        return all;
    }

private:
    std::vector<unsigned char> bytes_;
    std::size_t at_ = 0;
};

// Whether tables name only what is there. maskcull finds every fault; this finds those that would crash a rival.
inline void check(const Scene& scene) {
    std::size_t in_batches = 0;
    for (const Batch& batch : scene.batches) in_batches += batch.count;
    bool good = scene.width > 0 && scene.width <= 2048 && scene.width % 8 == 0 && scene.height > 0 &&
                scene.height <= 2048 && scene.height % 4 == 0 && scene.near_distance > 0 &&
                in_batches == scene.occluders.size();
    for (const auto* table : {&scene.occluders, &scene.object_triangles})
        for (const Triangle& triangle : *table)
            for (std::uint32_t number : triangle) good = good && number < scene.vertices.size();
    for (const Object& object : scene.objects) {
        const auto& numbers = object.numbers;
        good = good && object.kind <= MESH;
        if (object.kind == MESH)
            good = good && numbers[0] >= 0 && numbers[1] >= 0 &&
                   std::size_t(numbers[0]) + std::size_t(numbers[1]) <= scene.object_triangles.size();
    }
    if (!good) throw std::runtime_error("this is no scene");
}

inline Scene read_scene(std::FILE* file) {
    std::vector<unsigned char> all;
    unsigned char part[65536];
    while (std::size_t size = std::fread(part, 1, sizeof part, file)) all.insert(all.end(), part, part + size);
    Bytes bytes(std::move(all));
    if (bytes.take(4) != 0x434F534D) throw std::runtime_error("this is no scene");
    const std::uint32_t version = bytes.take(2);
    if (version != 1 && version != 2) throw std::runtime_error("this version isn't known");
    Scene scene;
    scene.width = int(bytes.take(2));
    scene.height = int(bytes.take(2));
    scene.near_distance = int(bytes.take(2));
    const Winding winding = Winding(bytes.take(1));
    scene.wide = bytes.take(1) == 1;
    const std::uint32_t frames = bytes.take(2), vertices = bytes.take(4), occluders = bytes.take(4);
    const std::uint32_t object_triangles = bytes.take(4), objects = bytes.take(4);
    const std::uint32_t batches = version == 2 ? bytes.take(4) : 0;
    scene.vertices = bytes.table<std::int32_t, 3>(vertices);
    scene.occluders = bytes.table<std::uint32_t, 3>(occluders);
    if (version == 1) scene.batches.push_back({occluders, winding});
    for (std::uint32_t k = 0; k < batches; ++k) {
        const std::uint32_t count = bytes.take(4);
        scene.batches.push_back({count, Winding(bytes.take(1))});
    }
    scene.object_triangles = bytes.table<std::uint32_t, 3>(object_triangles);
    for (std::uint32_t k = 0; k < objects; ++k) {
        scene.objects.push_back({Kind(bytes.take(1)), {}});
        for (std::int32_t& number : scene.objects.back().numbers) number = std::int32_t(bytes.take(4));
    }
    scene.cameras = bytes.table<std::int32_t, 12>(frames);
    check(scene);
    return scene;
}

}  // namespace rivals
