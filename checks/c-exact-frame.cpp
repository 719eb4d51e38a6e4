// What maskcull::exact_frame makes of floats that are no number, infinite or below the least normal number, of meshes
// that lie in many ways, and of what it has to refuse. The right answers are the same whatever flags it is compiled
// with: checks/c-library makes it with those that let a compiler take it that there are no such floats, and runs it. It
// prints each wrong answer, and how many there were. Floats are written by their bits, as in c-numbers.cpp.
#include "maskcull.hpp"

#include <cstdio>
#include <cstdlib>
#include <new>
#include <utility>

using maskcull::exact_frame;
using maskcull::exact_options;
using maskcull::mesh_view;
using maskcull::refusal;
using maskcull::verdict;

// How often memory was asked for.
static unsigned long memory_asked = 0;

void *operator new(std::size_t size) {
    memory_asked++;
    void *place = std::malloc(size == 0 ? 1 : size);
    if (place == nullptr) std::abort();
    return place;
}

void operator delete(void *place) noexcept { std::free(place); }
void operator delete(void *place, std::size_t) noexcept { std::free(place); }

namespace {

constexpr std::uint32_t infinite = 0x7f800000, sign = 0x80000000;
// No number, quiet and signalling, of either sign, and both infinities.
constexpr std::uint32_t bad[] = {0x7fc00000, 0xffc00000, 0x7f800001, 0xff800001, 0x7fffffff, 0xffffffff,
                                 infinite,   infinite | sign};

unsigned answers = 0, wrong = 0;

void expect(bool is_so, const char *what, std::size_t place = 0, std::uint32_t bits = 0) {
    answers++;
    if (is_so) return;
    wrong++;
    std::printf("wrong: %s, at %zu, bits %08x\n", what, place, static_cast<unsigned>(bits));
}

void put(float &place, std::uint32_t bits) { std::memcpy(&place, &bits, sizeof place); }

// The bits of a whole number times a power of two, also where that is below the least normal number.
std::uint32_t bits_of(int number, int power) {
    const std::uint32_t size = static_cast<std::uint32_t>(number < 0 ? -number : number);
    std::uint32_t top = 0;
    if (size == 0) return 0;
    while (size >> (top + 1) != 0) top++;
    const int exponent = static_cast<int>(top) + power;
    const std::uint32_t normal = (static_cast<std::uint32_t>(exponent + 127) << 23) | ((size << (23 - top)) & 0x7fffff);
    return (number < 0 ? sign : 0) | (exponent < -126 ? size << (power + 149) : normal);
}

void put_all(float *places, std::initializer_list<int> numbers, int power) {
    for (const int number : numbers) put(*places++, bits_of(number, power));
}

// A camera that looks along z, 90 degrees to each side; a wall at a distance of 4 that fills the screen, of two
// triangles and of many; and a box behind it: all in units of a power of two.
struct scene {
    static constexpr int columns = 40, rows = 20;

    float near_distance, matrix[16], low[3], high[3];
    std::vector<float> positions;
    std::vector<std::uint32_t> indices;

    explicit scene(int power = 0) {
        put(near_distance, bits_of(1, power));
        put_all(matrix, {1, 0, 0, 0, 0, 1, 0, 0, 0, 0, 0, 1, 0, 0, 0, 0}, 0);
        put_all(low, {-2, -2, 8}, power), put_all(high, {2, 2, 9}, power);
        positions.resize(12), indices = {0, 1, 2, 0, 2, 3};
        put_all(positions.data(), {-5, 5, 4, 5, 5, 4, 5, -5, 4, -5, -5, 4}, power);
        for (int y = 0; y <= rows; y++) {
            for (int x = 0; x <= columns; x++) {
                float p[3];
                // 64 in these units is 4, and the wall goes from -5 to 5
                put_all(p, {160 * x / columns - 80, 80 - 160 * y / rows, 64}, power - 4);
                positions.insert(positions.end(), p, p + 3);
            }
        }
        for (std::uint32_t y = 0; y < rows; y++) {
            for (std::uint32_t x = 0; x < columns; x++) {
                const std::uint32_t a = 4 + y * (columns + 1) + x, b = a + 1, d = a + columns + 1, c = d + 1;
                indices.insert(indices.end(), {a, b, c, a, c, d});
            }
        }
    }

    std::size_t vertex_count() const { return positions.size() / 3; }
    mesh_view mesh() const { return {positions.data(), 12, vertex_count(), indices.data(), indices.size()}; }
    std::optional<exact_frame> frame(exact_options chosen = {}) const {
        return exact_frame::make(128, 64, near_distance, chosen);
    }
};

bool is_empty(const exact_frame &frame) {
    for (std::size_t k = 0; k < frame.tiles().size(); k++) {
        for (std::uint32_t j = 0; j < 8; j++) {
            const auto held = maskcull_subtile(frame.tiles().data(), frame.tiles().size(), k, j);
            if (held.reference != 0 || held.mask != 0) return false;
        }
    }
    return true;
}

bool are_same(const exact_frame &first, const exact_frame &second) {
    const std::size_t bytes = first.tiles().size() * sizeof(maskcull_tile);
    return first.tiles().size() == second.tiles().size()
           && std::memcmp(first.tiles().data(), second.tiles().data(), bytes) == 0;
}

void try_reasons() {
    const auto reason = [](std::uint32_t width, std::uint32_t height, std::uint32_t near_bits, exact_options chosen) {
        float near_distance;
        put(near_distance, near_bits);
        refusal why = refusal::bad_grade;
        const auto frame = exact_frame::make(width, height, near_distance, chosen, &why);
        expect(frame.has_value() == (why == refusal::none), "a frame and a reason, or neither", width, near_bits);
        return why;
    };
    const std::uint32_t one = bits_of(1, 0);
    exact_options odd_winding, odd_reach, odd_share, most;
    odd_winding.winding = static_cast<maskcull_winding>(3), odd_reach.reach = 65, odd_share.share = (1 << 20) + 1;
    most.reach = 64, most.share = 1 << 20;
    for (const std::uint32_t size : {1u, 7u, 1366u, 2048u}) {
        expect(reason(size, size, one, most) == refusal::none, "no frame", size);
    }
    expect(reason(0, 9, one, {}) == refusal::no_pixels && reason(9, 0, one, {}) == refusal::no_pixels, "no pixels");
    expect(reason(9, 2049, one, {}) == refusal::too_large && reason(~0u, 9, one, {}) == refusal::too_large, "a size");
    expect(reason(9, 9, one, odd_winding) == refusal::bad_winding, "a bad winding");
    expect(reason(9, 9, one, odd_reach) == refusal::bad_reach, "a bad reach");
    expect(reason(9, 9, one, odd_share) == refusal::bad_share, "a bad share");
    for (const std::uint32_t bits : bad) {
        expect(reason(9, 9, bits, {}) == refusal::bad_near_distance, "a bad near distance", 0, bits);
    }
    for (const std::uint32_t bits : {0u, sign, one | sign, 1 | sign}) {
        expect(reason(9, 9, bits, {}) == refusal::bad_near_distance, "a near distance of 0 or below", 0, bits);
    }
    for (const std::uint32_t bits : {1u, 0x7fffffu, 0x800000u, infinite - 1}) {
        expect(reason(9, 9, bits, {}) == refusal::none, "a near distance that is allowed", 0, bits);
    }
    for (unsigned k = 0; k <= static_cast<unsigned>(refusal::bad_share); k++) {
        expect(std::strlen(maskcull::text_of(static_cast<refusal>(k))) > 10, "a reason without words", k);
    }
}

// In units from below the least normal number on.
void try_units() {
    for (const int power : {-140, -130, -126, -60, 0, 60, 100}) {
        const scene s(power);
        auto frame = s.frame();
        expect(frame && frame->draw(s.matrix, s.mesh()) == MASKCULL_DONE, "a draw", 0, bits_of(1, power));
        expect(frame->test_aabb(s.matrix, s.low, s.high) == verdict::occluded, "behind a wall", 0, bits_of(1, power));
        expect(frame->test_mesh(s.matrix, s.mesh()) == verdict::visible, "the wall itself", 0, bits_of(1, power));
    }
}

void try_bad_numbers() {
    for (const std::uint32_t bits : bad) {
        for (std::size_t k = 0; k < 16; k++) {
            scene s;
            auto frame = s.frame();
            put(s.matrix[k], bits);
            const bool is_read = k % 4 != 2; // all but the row of z
            expect(frame->draw(s.matrix, s.mesh()) == MASKCULL_DONE, "a draw by a bad matrix", k, bits);
            expect(is_empty(*frame) == is_read, "drawn by a bad matrix", k, bits);
            const scene good;
            frame->draw(good.matrix, good.mesh());
            expect((frame->test_aabb(s.matrix, s.low, s.high) == verdict::visible) == is_read, "a box", k, bits);
            expect(frame->test_mesh(s.matrix, s.mesh()) == verdict::visible, "a mesh by a bad matrix", k, bits);
        }
        const scene good;
        auto frame = good.frame();
        frame->draw(good.matrix, good.mesh());
        for (std::size_t k = 0; k < 6; k++) {
            scene s;
            put(k < 3 ? s.low[k] : s.high[k - 3], bits);
            expect(frame->test_aabb(s.matrix, s.low, s.high) == verdict::visible, "a box with a bad number", k, bits);
        }
        scene one; // a single triangle that fills the screen but for a bad number
        put_all(one.positions.data(), {-99, 99, 4, 99, 99, 4, 0, -999, 4}, 0);
        one.indices = {0, 1, 2};
        for (std::size_t k = 0; k < 9; k++) {
            scene s = one;
            put(s.positions[k], bits);
            auto other = s.frame();
            expect(other->draw(s.matrix, s.mesh()) == MASKCULL_DONE && is_empty(*other), "a bad position", k, bits);
            expect(frame->test_mesh(s.matrix, s.mesh()) == verdict::visible, "a mesh of a bad position", k, bits);
        }
    }
}

void try_clearings() {
    const scene s;
    auto frame = s.frame();
    float other;
    for (const std::uint32_t bits : bad) {
        put(other, bits);
        expect(!frame->clear(other), "a bad near distance for a clearing", 0, bits);
        expect(frame->draw(s.matrix, s.mesh()) == MASKCULL_DONE && is_empty(*frame), "drawn without one", 0, bits);
        expect(frame->test_aabb(s.matrix, s.low, s.high) == verdict::visible, "a box without one", 0, bits);
        expect(frame->clear(s.near_distance), "a good near distance", 0, bits);
        frame->draw(s.matrix, s.mesh());
        expect(frame->test_aabb(s.matrix, s.low, s.high) == verdict::occluded, "a box with one again", 0, bits);
    }
    put(other, bits_of(5, 0)); // behind the wall
    expect(frame->clear(other) && frame->draw(s.matrix, s.mesh()) == MASKCULL_DONE, "a farther near distance");
    expect(is_empty(*frame), "drawn before the near distance");
    frame->clear();
    expect(is_empty(*frame), "cleared");
}

// The wall in other forms, which leave the same tiles.
void try_layouts(const scene &s, const exact_frame &expected) {
    auto frame = s.frame();
    const std::size_t count = s.vertex_count();
    std::vector<std::uint16_t> short_indices(s.indices.begin(), s.indices.end());
    frame->draw(s.matrix, mesh_view(s.positions.data(), 12, count, short_indices.data(), short_indices.size()));
    expect(are_same(*frame, expected), "indices of two bytes");
    for (const std::size_t stride : {std::size_t{12}, std::size_t{13}, std::size_t{16}, std::size_t{30}}) {
        for (std::size_t first = 0; first < 5; first++) {
            std::vector<unsigned char> bytes(first + stride * (count - 1) + 12, 0xff);
            for (std::size_t k = 0; k < count; k++) std::memcpy(&bytes[first + stride * k], &s.positions[3 * k], 12);
            frame->clear();
            frame->draw(s.matrix, mesh_view(&bytes[first], stride, count, s.indices.data(), s.indices.size()));
            expect(are_same(*frame, expected), "positions at other bytes", 100 * stride + first);
        }
    }
    // numbers that are far from each other in each slice
    scene mixed = s;
    for (std::size_t k = 0; k < count; k++) {
        std::memcpy(&mixed.positions[3 * (k * 337 % count)], &s.positions[3 * k], 12);
    }
    for (std::uint32_t &number : mixed.indices) number = static_cast<std::uint32_t>(number * 337 % count);
    frame->clear();
    frame->draw(mixed.matrix, mixed.mesh());
    expect(are_same(*frame, expected), "vertices in another order");
}

// The wall by parts, which leave the same tiles.
void try_parts(const scene &s, const exact_frame &expected) {
    auto frame = s.frame();
    maskcull::exact_pieces kept;
    for (std::uint32_t row = 0; row < frame->row_count(); row += 3) {
        const std::uint32_t rows = std::min(3u, frame->row_count() - row);
        expect(frame->draw_band(row, rows, s.matrix, s.mesh(), kept) == MASKCULL_DONE, "a band", row);
    }
    expect(are_same(*frame, expected), "bands");
    const std::size_t all = s.indices.size() / 3;
    for (const std::size_t size : {std::size_t{2}, std::size_t{10}, std::size_t{1500}}) {
        frame->clear();
        for (std::size_t first = 0; first < all; first += size) {
            const std::size_t count = std::min(size, all - first);
            expect(frame->set_up(s.matrix, s.mesh(), first, count, kept) == MASKCULL_DONE, "a slice", first);
            expect(frame->draw_pieces(0, frame->row_count(), kept.room.data(), kept.count) == MASKCULL_DONE, "pieces");
        }
        expect(are_same(*frame, expected), "slices", size);
    }
    frame->clear();
    frame->draw(s.matrix, s.mesh());
    const unsigned long before = memory_asked;
    frame->clear();
    frame->draw(s.matrix, s.mesh());
    frame->test_mesh(s.matrix, s.mesh());
    expect(memory_asked == before, "memory for the second time");
}

void try_refusals(const scene &s, exact_frame &frame, const exact_frame &expected) {
    scene odd = s;
    odd.indices.back() = static_cast<std::uint32_t>(s.vertex_count());
    maskcull::exact_pieces kept;
    const std::size_t all = s.indices.size() / 3;
    const std::uint32_t rows = frame.row_count();
    const mesh_view nothing(nullptr, 12, 3, s.indices.data(), 3);
    expect(frame.draw(s.matrix, odd.mesh()) == MASKCULL_BAD_INDEX, "a bad index");
    expect(frame.set_up(s.matrix, odd.mesh(), all - 1, 1, kept) == MASKCULL_BAD_INDEX, "a bad index of a slice");
    expect(frame.set_up(s.matrix, s.mesh(), all, 1, kept) == MASKCULL_BAD_INDEX, "a slice behind the last");
    expect(frame.test_mesh(s.matrix, odd.mesh()) == verdict::visible, "a mesh with a bad index");
    expect(frame.draw(nullptr, s.mesh()) == MASKCULL_NULL && frame.draw(s.matrix, nothing) == MASKCULL_NULL, "null");
    expect(frame.test_aabb(nullptr, s.low, s.high) == verdict::visible, "a box by no matrix");
    expect(frame.test_mesh(s.matrix, nothing) == verdict::visible, "a mesh of no positions");
    expect(frame.draw_band(rows, 1, s.matrix, s.mesh(), kept) == MASKCULL_BAD_TILES, "a band below the last");
    expect(frame.draw_pieces(1, rows, kept.room.data(), 0) == MASKCULL_BAD_TILES, "pieces below the last row");
    expect(frame.draw(s.matrix, s.mesh(), static_cast<maskcull_winding>(3)) == MASKCULL_BAD_SETUP, "no winding");
    expect(are_same(frame, expected), "refusals leave the tiles");
    const mesh_view no_triangle(nullptr, 12, 0, s.indices.data(), 2);
    expect(frame.test_mesh(s.matrix, no_triangle) == verdict::outside, "no triangle");
    exact_frame taken = std::move(frame);
    expect(are_same(taken, expected), "a frame that was moved");
    expect(frame.draw(s.matrix, s.mesh()) == MASKCULL_BAD_TILES, "a draw of a frame that was moved from");
    expect(frame.test_aabb(s.matrix, s.low, s.high) == verdict::visible, "a test of a frame that was moved from");
    frame = std::move(taken);
}

void try_windings(const scene &s) {
    for (const bool is_down : {false, true}) {
        exact_options chosen;
        chosen.winding = MASKCULL_DROPS_CLOCKWISE, chosen.y_is_down = is_down;
        auto frame = s.frame(chosen);
        frame->draw(s.matrix, s.mesh());
        // the wall is clockwise with y upwards
        expect(is_empty(*frame) != is_down, "a winding of the frame", is_down ? 1 : 0);
        frame->draw(s.matrix, s.mesh(), MASKCULL_DROPS_COUNTERCLOCKWISE);
        expect(!is_empty(*frame), "a winding of a draw", is_down ? 1 : 0);
    }
}

} // namespace

int main() {
    const scene s;
    auto expected = s.frame(), frame = s.frame();
    if (!expected || !frame || expected->draw(s.matrix, s.mesh()) != MASKCULL_DONE) return 1;
    frame->draw(s.matrix, s.mesh());
    try_reasons();
    try_units();
    try_bad_numbers();
    try_clearings();
    try_layouts(s, *expected);
    try_parts(s, *expected);
    try_refusals(s, *frame, *expected);
    try_windings(s);
    std::printf("%u answers, %u of them wrong\n", answers, wrong);
    return wrong == 0 ? 0 : 1;
}
