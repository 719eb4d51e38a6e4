// What maskcull.hpp answers for floats that are no number, infinite, below the least normal number, or at a limit. The
// right answers are the same whatever flags it is compiled with: checks/c-library makes it with those that let a
// compiler take it that there are no such floats, and runs it. It prints each wrong answer, and how many there were.
//
// Floats are written by their bits, and never handed over or returned by value, since under such a flag what is no
// number may get lost on the way, before the library sees it.
#include "maskcull.hpp"

#include <cstdio>
#include <cstdlib>
#include <cstring>
#include <new>

using maskcull::clip_point;

// How often memory was asked for.
static unsigned long memory_asked = 0;

void *operator new(std::size_t size) {
    memory_asked++;
    void *place = std::malloc(size == 0 ? 1 : size);
    if (place == nullptr) std::abort();
    return place;
}

void operator delete(void *place) noexcept { std::free(place); }
void operator delete(void *place, std::size_t) noexcept { std::free(place); }

namespace {

constexpr std::uint32_t infinite = 0x7f800000, greatest = 0x7f7fffff, least_normal = 0x00800000, sign = 0x80000000;
// No number, quiet and signalling, of either sign, and both infinities.
constexpr std::uint32_t bad[] = {0x7fc00000, 0xffc00000, 0x7f800001, 0xff800001, 0x7fffffff, 0xffffffff,
                                 infinite,   infinite | sign};
// 15000 and 20000, of either sign: within what occluders reach at a near distance of 1, and past it.
constexpr std::uint32_t reached[] = {0x466a6000, 0x466a6000 | sign}, past[] = {0x469c4000, 0x469c4000 | sign};
// The greatest number, of either sign: farther than is known.
constexpr std::uint32_t far_off[] = {greatest, greatest | sign};

unsigned answers = 0, wrong = 0;

void expect(bool is_so, const char *what, unsigned place = 0, unsigned axis = 0, std::uint32_t bits = 0) {
    answers++;
    if (is_so) return;
    wrong++;
    std::printf("wrong: %s, point %u, coordinate %u, bits %08x\n", what, place, axis, static_cast<unsigned>(bits));
}

void put(float &place, std::uint32_t bits) {
    std::memcpy(&place, &bits, sizeof place);
}

void put(clip_point &point, unsigned axis, std::uint32_t bits) {
    put(axis == 0 ? point.x : axis == 1 ? point.y : point.w, bits);
}

// The bits of number / 64 times a power of two, also where that is below the least normal number: by whole numbers,
// since such floats may be taken for 0.
std::uint32_t bits_of(int number, int power) {
    std::uint32_t size = static_cast<std::uint32_t>(number < 0 ? -number : number), top = 0;
    if (size == 0) return 0;
    while (size >> (top + 1) != 0) top++;
    const int exponent = static_cast<int>(top) - 6 + power;
    const std::uint32_t normal = (static_cast<std::uint32_t>(exponent + 127) << 23) | ((size << (23 - top)) & 0x7fffff);
    return (number < 0 ? sign : 0) | (exponent < -126 ? size << (power - 6 + 149) : normal);
}

struct place {
    int x, y, w; // in 64ths
};

void put(clip_point &point, const place &at, int power) {
    put(point.x, bits_of(at.x, power));
    put(point.y, bits_of(at.y, power));
    put(point.w, bits_of(at.w, power));
}

struct box {
    clip_point corners[8];
};

// From w = near_w to 9, and as far to all sides as half_size from a middle at the height of the eye.
box box_between(int middle_x, int half_size, int near_w, int power = 0) {
    box made;
    for (int k = 0; k < 8; k++) {
        const place at = {middle_x + (k & 1 ? half_size : -half_size), k & 2 ? half_size : -half_size,
                          k & 4 ? near_w : 9 * 64};
        put(made.corners[k], at, power);
    }
    return made;
}

// At w = 4, from the left edge of the screen to its right edge or its middle.
struct wall {
    clip_point corners[4];

    explicit wall(bool is_whole = true, int power = 0) {
        const int left = -5 * 64, right = is_whole ? 5 * 64 : 0, up = 5 * 64, w = 4 * 64;
        const place at[4] = {{left, up, w}, {right, up, w}, {right, -up, w}, {left, -up, w}};
        for (int k = 0; k < 4; k++) put(corners[k], at[k], power);
    }
};

constexpr maskcull_triangle upper = {0, 1, 2}, lower = {0, 2, 3};

std::optional<maskcull::frame> frame_of(int power = 0) {
    float near_distance;
    put(near_distance, bits_of(64, power));
    return maskcull::frame::make(128, 64, near_distance);
}

// A frame with some triangles of a wall, or none where they couldn't be drawn.
std::optional<maskcull::frame> drawn(const wall &w, const std::vector<maskcull_triangle> &triangles, int power = 0) {
    auto frame = frame_of(power);
    if (frame && frame->draw(frame->prepare(w.corners, 4, triangles.data(), triangles.size())) != MASKCULL_DONE) {
        return std::nullopt;
    }
    return frame;
}

bool are_same(const std::optional<maskcull::frame> &one, const std::optional<maskcull::frame> &other) {
    if (!one || !other || one->tiles().size() != other->tiles().size()) return false;
    return std::memcmp(one->tiles().data(), other->tiles().data(), one->tiles().size() * sizeof(maskcull_tile)) == 0;
}

bool is_hidden(const maskcull::frame &frame, const box &b) {
    return frame.is_hidden(b.corners, 8);
}

// A near distance that isn't a finite number above 0 makes no frame, each other one does.
void try_near_distances() {
    float distance;
    for (const std::uint32_t bits : bad) {
        put(distance, bits);
        expect(!maskcull::frame::make(128, 64, distance), "a frame of a bad near distance", 0, 0, bits);
    }
    for (const std::uint32_t bits : {0x00000000u, sign, 0xbf800000u, sign | 1, sign | greatest}) {
        put(distance, bits);
        expect(!maskcull::frame::make(128, 64, distance), "a frame of a near distance that isn't above 0", 0, 0, bits);
    }
    for (const std::uint32_t bits : {1u, least_normal - 1, least_normal, 0x3f800000u, greatest}) {
        put(distance, bits);
        expect(maskcull::frame::make(128, 64, distance).has_value(), "no frame of a good near distance", 0, 0, bits);
    }
}

// One coordinate of one corner is bad: not hidden.
void try_bad_corners(const maskcull::frame &frame) {
    for (unsigned k = 0; k < 8; k++) {
        for (unsigned axis = 0; axis < 3; axis++) {
            for (const std::uint32_t bits : bad) {
                box b = box_between(0, 64, 8 * 64);
                put(b.corners[k], axis, bits);
                expect(!is_hidden(frame, b), "a box with a bad corner is hidden", k, axis, bits);
                expect(!frame.is_hidden(&b.corners[k], 1), "a bad point is hidden", k, axis, bits);
            }
        }
        // 0, below the near distance, and behind the eye
        for (const std::uint32_t bits : {0u, sign, 1u, sign | 1, 0x3f7fffffu, 0xbf800000u, sign | greatest}) {
            box b = box_between(0, 64, 8 * 64);
            put(b.corners[k], 2, bits);
            expect(!is_hidden(frame, b), "a box with a corner before the near distance is hidden", k, 2, bits);
        }
    }
}

// What is odd and no fault: a zero's sign, what is below the least normal number, and the greatest distance.
void try_good_corners(const maskcull::frame &frame) {
    expect(is_hidden(frame, box_between(0, 64, 8 * 64)), "a box behind the wall isn't hidden");
    expect(!is_hidden(frame, box_between(0, 64, 3 * 64)), "a box that reaches in front of the wall is hidden");
    for (unsigned k = 0; k < 8; k++) {
        for (unsigned axis = 0; axis < 2; axis++) {
            for (const std::uint32_t bits : {0u, sign, 1u, sign | 1, least_normal - 1, sign | least_normal}) {
                box b = box_between(0, 64, 8 * 64);
                put(b.corners[k], axis, bits);
                expect(is_hidden(frame, b), "a box with a corner at 0, or about there, isn't hidden", k, axis, bits);
            }
        }
        box b = box_between(0, 64, 8 * 64);
        put(b.corners[k], 2, greatest);
        expect(is_hidden(frame, b), "a box that reaches to the greatest distance isn't hidden", k, 2, greatest);
    }
}

// One coordinate of one corner of the wall is bad or farther than is known: only what hasn't this corner is drawn.
void try_bad_occluders() {
    const std::vector<maskcull_triangle> both = {upper, lower};
    const auto none = drawn(wall(), {}), whole = drawn(wall(), both);
    const auto upper_alone = drawn(wall(), {upper}), lower_alone = drawn(wall(), {lower});
    expect(!are_same(whole, none) && !are_same(upper_alone, none) && !are_same(lower_alone, none), "nothing is drawn");
    for (unsigned k = 0; k < 4; k++) {
        const auto &left_over = k == 1 ? lower_alone : k == 3 ? upper_alone : none;
        const auto try_bits = [&](unsigned axis, std::uint32_t bits) {
            wall w;
            put(w.corners[k], axis, bits);
            expect(are_same(drawn(w, both), left_over), "a wall with a bad corner is drawn otherwise", k, axis, bits);
        };
        for (unsigned axis = 0; axis < 3; axis++) {
            for (const std::uint32_t bits : bad) try_bits(axis, bits);
            for (const std::uint32_t bits : far_off) try_bits(axis, bits);
        }
    }
    // a wall over the left half, whose right corners are at a zero of either sign or about there
    const auto half = drawn(wall(false), both);
    expect(!are_same(half, whole) && !are_same(half, none), "half a wall is a whole one or none");
    for (const std::uint32_t bits : {sign, 1u, sign | 1, least_normal - 1, sign | least_normal}) {
        wall w(false);
        put(w.corners[1].x, bits);
        put(w.corners[2].x, bits);
        expect(are_same(drawn(w, both), half), "a wall that ends at 0, or about there, is drawn otherwise", 1, 0, bits);
    }
}

// One corner of the wall is past what occluders reach: it is cut there, and hides what it hides with one that is
// reached.
void try_far_occluders() {
    unsigned hidden = 0;
    for (unsigned k = 0; k < 4; k++) {
        for (unsigned axis = 0; axis < 3; axis++) {
            for (unsigned side = 0; side < 2; side++) {
                wall near_one, far_one;
                put(near_one.corners[k], axis, reached[side]);
                put(far_one.corners[k], axis, past[side]);
                const auto near_frame = drawn(near_one, {upper, lower}), far_frame = drawn(far_one, {upper, lower});
                for (const int middle_x : {-4 * 64, 0, 4 * 64}) {
                    const box b = box_between(middle_x, 64, 8 * 64);
                    const bool is_so = near_frame && far_frame && is_hidden(*near_frame, b);
                    hidden += is_so ? 1 : 0;
                    expect(far_frame && is_hidden(*far_frame, b) == is_so, "a wall that is cut hides otherwise", k,
                           axis, past[side]);
                }
            }
        }
    }
    expect(hidden > 20, "a wall that reaches far hides too little");
}

// A wall before the near distance, by however little, is cut off by a renderer, and drawn here neither.
void try_near_plane() {
    const auto none = drawn(wall(), {});
    for (const std::uint32_t bits : {0x3f7fffffu, 0x3f7fff00u, 0x3f7ff800u, 0x3f7f0000u, 0x3fa00000u}) {
        wall w;
        for (unsigned k = 0; k < 4; k++) put(w.corners[k], 2, bits);
        const bool is_before = bits < 0x3f800000;
        expect(are_same(drawn(w, {upper, lower}), none) == is_before, "a wall about the near distance", 0, 2, bits);
    }
}

// The same scene in other units, down to where all its numbers are below the least normal one: the same answers.
void try_units() {
    const auto at_one = drawn(wall(false), {upper, lower});
    for (const int power : {0, 1, 60, 120, -60, -120, -126, -128, -131, -140}) {
        const auto bits = bits_of(64, power);
        const auto frame = drawn(wall(false, power), {upper, lower}, power);
        expect(are_same(frame, at_one), "the wall is drawn otherwise in other units", 0, 0, bits);
        if (!frame) continue;
        expect(is_hidden(*frame, box_between(-4 * 64, 64, 8 * 64, power)), "a box isn't hidden", 0, 0, bits);
        expect(!is_hidden(*frame, box_between(4 * 64, 64, 8 * 64, power)), "a box beside it is hidden", 0, 0, bits);
        expect(!is_hidden(*frame, box_between(-32, 64, 8 * 64, power)), "a box is hidden past the wall", 0, 0, bits);
        expect(!is_hidden(*frame, box_between(-4 * 64, 64, 2 * 64, power)), "a nearer box is hidden", 0, 0, bits);
    }
}

// What this program itself has reckoned: infinity as a product, and no number as a difference of infinities. A compiler
// that sees both how it is reckoned and the call may take it that there is no such thing. The numbers are volatile, so
// that it doesn't see what they are.
volatile float great, infinity, other_infinity;

void try_reckoned(const maskcull::frame &frame) {
    float number;
    put(number, greatest);
    great = number;
    put(number, infinite);
    infinity = number;
    other_infinity = number;
    for (unsigned k = 0; k < 8; k++) {
        box wide = box_between(0, 64, 8 * 64), odd = wide, off = wide;
        wide.corners[k].x = great * 4.0f;
        odd.corners[k].y = infinity - other_infinity;
        off.corners[k].w = great * great;
        expect(!is_hidden(frame, wide), "a box with a product as a corner is hidden", k, 0);
        expect(!is_hidden(frame, odd), "a box with a difference as a corner is hidden", k, 1);
        expect(!is_hidden(frame, off), "a box with a square as a corner is hidden", k, 2);
    }
    wall w;
    w.corners[0].x = infinity - other_infinity;
    expect(are_same(drawn(w, {upper, lower}), drawn(w, {})), "a wall with a difference as a corner is drawn", 0, 0);
    expect(!maskcull::frame::make(128, 64, great * great), "a frame of a square as the near distance");
    float matrix[16] = {1, 0, 0, 0, 0, 1, 0, 0, 0, 0, 0, 1, 0, 0, 0, 0}, low[3] = {-1, -1, 8}, high[3] = {1, 1, 9};
    expect(frame.test_aabb(matrix, low, high) == maskcull::verdict::occluded, "a box through a matrix isn't occluded");
    high[2] = great * 4.0f;
    expect(frame.test_aabb(matrix, low, high) == maskcull::verdict::visible, "a box of a product is occluded");
    high[2] = 9;
    matrix[0] = infinity - other_infinity;
    expect(frame.test_aabb(matrix, low, high) == maskcull::verdict::visible, "a box is occluded by a difference");
}

// A matrix that leaves x, y and z as x, y and w, column by column, with numbers that are none in the row for z.
struct plain_matrix {
    float numbers[16];

    plain_matrix() {
        for (unsigned k = 0; k < 16; k++) put(numbers[k], bad[k % 8]);
        for (unsigned column = 0; column < 4; column++) {
            for (const unsigned row : {0u, 1u, 3u}) numbers[4 * column + row] = 0;
        }
        numbers[0] = 1, numbers[5] = 1, numbers[11] = 1;
    }
};

constexpr std::uint16_t wall_indices[] = {0, 1, 2, 0, 2, 3};

maskcull::mesh_view mesh_of(const wall &w) {
    return maskcull::mesh_view(w.corners, sizeof(clip_point), 4, wall_indices, 6);
}

std::optional<maskcull::frame> drawn_as_mesh(const wall &w, const plain_matrix &m, int power = 0) {
    auto frame = frame_of(power);
    if (frame && frame->draw(m.numbers, mesh_of(w)) != MASKCULL_DONE) return std::nullopt;
    return frame;
}

maskcull::verdict verdict_of(const maskcull::frame &frame, const plain_matrix &m, const box &b) {
    const float low[3] = {b.corners[0].x, b.corners[0].y, b.corners[0].w};
    const float high[3] = {b.corners[7].x, b.corners[7].y, b.corners[7].w};
    return frame.test_aabb(m.numbers, low, high);
}

// The wall and boxes through a matrix: as without one. What is asked is told by three words.
void try_matrices() {
    using maskcull::verdict;
    const plain_matrix m;
    const std::vector<maskcull_triangle> both = {upper, lower};
    const auto frame = drawn_as_mesh(wall(false), m), none = frame_of();
    expect(are_same(frame, drawn(wall(false), both)), "the wall is drawn otherwise through a matrix");
    if (!frame) return;
    const box behind = box_between(-4 * 64, 64, 8 * 64), beside = box_between(4 * 64, 64, 8 * 64);
    const box before = box_between(-4 * 64, 64, 2 * 64), off = box_between(40 * 64, 64, 8 * 64);
    expect(verdict_of(*frame, m, behind) == verdict::occluded, "a box behind the wall isn't occluded");
    expect(verdict_of(*frame, m, beside) == verdict::visible, "a box beside the wall isn't visible");
    expect(verdict_of(*frame, m, before) == verdict::visible, "a box before the wall isn't visible");
    expect(verdict_of(*frame, m, off) == verdict::outside, "a box beside the screen isn't outside");
    const float low[3] = {-9, -9, -9}, high[3] = {9, 9, 9}, back[3] = {9, 9, -2};
    expect(frame->test_aabb(m.numbers, low, high) == verdict::visible, "a box around the eye isn't visible");
    expect(frame->test_aabb(m.numbers, low, back) == verdict::outside, "a box behind the eye isn't outside");
    for (unsigned place = 0; place < 16; place++) {
        for (const std::uint32_t bits : bad) {
            plain_matrix odd;
            put(odd.numbers[place], bits);
            const bool is_read = place % 4 != 2;
            const auto odd_frame = drawn_as_mesh(wall(false), odd);
            expect(are_same(odd_frame, is_read ? none : frame), "a mesh is drawn by a bad matrix", place, 0, bits);
            const verdict found = verdict_of(*frame, odd, behind);
            expect(found == (is_read ? verdict::visible : verdict::occluded), "a bad matrix", place, 0, bits);
            wall w(false);
            const verdict of_mesh = frame->test_mesh(odd.numbers, mesh_of(w));
            expect(of_mesh == verdict::visible, "a mesh, a bad matrix", place, 0, bits);
        }
    }
}

// One coordinate of one corner is bad: of a mesh that is drawn only what hasn't this corner is, and what is asked is
// visible.
void try_bad_meshes(const maskcull::frame &frame) {
    using maskcull::verdict;
    const plain_matrix m;
    for (unsigned k = 0; k < 4; k++) {
        for (unsigned axis = 0; axis < 3; axis++) {
            for (const std::uint32_t bits : bad) {
                wall w;
                put(w.corners[k], axis, bits);
                const auto left_over = drawn(w, {upper, lower});
                expect(are_same(drawn_as_mesh(w, m), left_over), "a bad corner of a mesh", k, axis, bits);
                wall behind;
                for (clip_point &corner : behind.corners) put(corner.w, 0x41000000), corner.x /= 4, corner.y /= 4;
                expect(frame.test_mesh(m.numbers, mesh_of(behind)) == verdict::occluded, "a mesh behind the wall");
                put(behind.corners[k], axis, bits);
                expect(frame.test_mesh(m.numbers, mesh_of(behind)) == verdict::visible, "a bad mesh", k, axis, bits);
                for (const unsigned end : {0u, 1u}) {
                    float ends[2][3] = {{-1, -1, 8}, {1, 1, 9}};
                    put(ends[end][axis], bits);
                    const verdict of_box = frame.test_aabb(m.numbers, ends[0], ends[1]);
                    expect(of_box == verdict::visible, "a bad box", end, axis, bits);
                }
            }
        }
    }
    const std::uint32_t beyond[] = {0, 1, 4};
    const wall w;
    const maskcull::mesh_view odd(w.corners, sizeof(clip_point), 4, beyond, 3);
    auto other = frame_of();
    expect(other && other->draw(m.numbers, odd) == MASKCULL_BAD_INDEX, "an index that isn't there is drawn");
    expect(other && other->test_mesh(m.numbers, odd) == verdict::visible, "an index that isn't there is asked");
    expect(other && other->draw(m.numbers, {nullptr, 12, 3, beyond, 3}) == MASKCULL_NULL, "no positions are drawn");
    expect(other && other->draw(nullptr, mesh_of(w)) == MASKCULL_NULL, "no matrix is drawn by");
    expect(frame.test_mesh(m.numbers, {w.corners, 12, 4, beyond, 2}) == verdict::outside, "a mesh without a triangle");
}

// Corners that are made of terms farther than is known, which cancel: nothing is drawn of them, nor hidden.
void try_great_terms(const maskcull::frame &frame) {
    for (const float great_term : {1e12f, 1e20f, 1e30f, 3e38f}) {
        plain_matrix m;
        m.numbers[0] = great_term, m.numbers[4] = -great_term;
        wall w;
        for (clip_point &corner : w.corners) corner.y = corner.x;
        std::vector<clip_point> many;
        std::vector<std::uint32_t> indices;
        for (std::uint32_t k = 0; k < 100; k++) {
            many.insert(many.end(), w.corners, w.corners + 3);
            indices.insert(indices.end(), {3 * k, 3 * k + 1, 3 * k + 2});
        }
        auto other = frame_of();
        const maskcull::mesh_view mesh(many.data(), sizeof(clip_point), many.size(), indices.data(), indices.size());
        expect(other && other->draw(m.numbers, mesh) == MASKCULL_DONE && are_same(other, frame_of()), "great terms");
        expect(frame.test_mesh(m.numbers, mesh) == maskcull::verdict::visible, "a mesh of great terms is hidden");
    }
}

// The same in other units, down to where all numbers are below the least normal one.
void try_mesh_units() {
    const plain_matrix m;
    for (const int power : {0, 1, 60, 120, -60, -120, -126, -128, -131, -140}) {
        const auto frame = drawn_as_mesh(wall(false, power), m, power);
        const auto bits = bits_of(64, power);
        expect(are_same(frame, drawn(wall(false, power), {upper, lower}, power)), "a mesh in other units", 0, 0, bits);
    }
}

// A ground 1.7 m below the eye reaches 10 km to all sides, past the guard, which is at 1.6 km for a near distance of
// 10 cm, and is seen too much from its edge there. A box is under it at a distance of 20 m and one stands on it.
void try_ground() {
    using maskcull::verdict;
    const float ground[] = {-1e4f, -1.7f, -1e4f, 1e4f, -1.7f, -1e4f, 1e4f, -1.7f, 1e4f, -1e4f, -1.7f, 1e4f};
    const std::uint32_t indices[] = {0, 1, 2, 0, 2, 3};
    const plain_matrix m;
    float near_distance = 0.1f;
    auto frame = maskcull::frame::make(1280, 720, near_distance);
    if (!frame) return;
    expect(frame->draw(m.numbers, {ground, 12, 4, indices, 6}) == MASKCULL_DONE, "the ground isn't drawn");
    for (const float away : {8.0f, 20.0f, 100.0f, 200.0f}) {
        const float under[2][3] = {{-1, -4, away}, {1, -3, away + 2}}, on[2][3] = {{-1, -1.6f, away}, {1, 0, away + 2}};
        expect(frame->test_aabb(m.numbers, under[0], under[1]) == verdict::occluded, "a box under the ground is seen");
        expect(frame->test_aabb(m.numbers, on[0], on[1]) == verdict::visible, "a box on the ground is hidden");
    }
}

// Meshes that are prepared one behind another are drawn as each by itself; and what is prepared, drawn and asked again,
// with a wall that is cut among it, asks for no memory.
void try_room() {
    const plain_matrix m;
    const std::uint32_t first[] = {0, 1, 2}, second[] = {0, 2, 3};
    wall w(false), far_one(false);
    put(far_one.corners[3], 1, past[1]);
    const maskcull::mesh_view meshes[] = {{w.corners, sizeof(clip_point), 4, first, 3},
                                          {far_one.corners, sizeof(clip_point), 4, second, 3}};
    auto by_one = frame_of(), one_by_one = frame_of();
    if (!by_one || !one_by_one) return;
    maskcull::occluders made;
    unsigned long before = 0;
    const float low[3] = {-5, -1, 8}, high[3] = {-3, 1, 9};
    for (int round = 0; round < 3; round++) {
        if (round == 1) before = memory_asked;
        by_one->clear(), one_by_one->clear();
        by_one->prepare_into(made, m.numbers, meshes[0]);
        by_one->prepare_more_into(made, m.numbers, meshes[1]);
        expect(by_one->draw(made) == MASKCULL_DONE, "two meshes aren't drawn");
        for (const maskcull::mesh_view &mesh : meshes) {
            expect(one_by_one->draw(m.numbers, mesh) == MASKCULL_DONE, "a mesh isn't drawn");
        }
        expect(by_one->test_aabb(m.numbers, low, high) == maskcull::verdict::occluded, "a box behind two meshes");
        expect(by_one->test_mesh(m.numbers, meshes[0]) == maskcull::verdict::visible, "a mesh that is drawn itself");
    }
    expect(memory_asked == before && before != 0, "memory is asked for in a frame like the last one");
    expect(made.vertices.size() > 8, "nothing is cut");
    expect(are_same(by_one, one_by_one) && !are_same(by_one, frame_of()), "two meshes are drawn otherwise at once");
}

// A wall whose upper triangle runs clockwise on the screen and its lower one the other way round.
constexpr std::uint32_t one_each_way[] = {0, 1, 2, 0, 3, 2};

// What the calls in C leave of it, with a winding for each of two draws.
std::vector<maskcull_tile> drawn_in_c(const maskcull::frame &frame, const maskcull::occluders &made,
                                      std::uint32_t first, std::uint32_t second) {
    std::vector<maskcull_tile> tiles(frame.tiles().size());
    for (const std::uint32_t winding : {first, second}) {
        maskcull_setup setup = frame.setup();
        setup.winding = setup.winding / MASKCULL_WIDE * MASKCULL_WIDE + winding;
        const auto status = maskcull_draw(&setup, tiles.data(), tiles.size(), made.vertices.data(),
                                          made.vertices.size(), made.triangles.data(), made.triangles.size());
        expect(status == MASKCULL_DONE, "a draw in C is refused", winding);
    }
    return tiles;
}

bool has_tiles(const maskcull::frame &frame, const std::vector<maskcull_tile> &tiles) {
    const auto &held = frame.tiles();
    return held.size() == tiles.size() && std::memcmp(held.data(), tiles.data(), held.size() * sizeof held[0]) == 0;
}

// One way to draw with a winding: all rows, bands, a mesh, or pieces of two slices.
std::uint32_t draw_in_a_way(maskcull::frame &frame, unsigned way, const maskcull::occluders &made,
                            const maskcull::mesh_view &mesh, std::optional<maskcull_winding> winding) {
    const plain_matrix m;
    if (way == 0) return frame.draw(made, winding);
    if (way == 1) return frame.draw(m.numbers, mesh, winding);
    if (way == 2) {
        const auto status = frame.draw_band(0, 3, made, winding);
        return status == MASKCULL_DONE ? frame.draw_band(3, frame.row_count() - 3, made, winding) : status;
    }
    maskcull_piece pieces[4];
    for (const std::size_t first : {std::size_t{0}, std::size_t{1}}) {
        std::size_t count = 0;
        auto status = frame.set_up(made, first, 1, pieces, 4, count, winding);
        if (status == MASKCULL_DONE) status = frame.draw_pieces(0, frame.row_count(), pieces, count);
        if (status != MASKCULL_DONE) return status;
    }
    return MASKCULL_DONE;
}

// A winding for each draw: the tiles of the same calls in C. Without one it is the frame's.
void try_windings() {
    const wall w;
    const plain_matrix m;
    const maskcull::mesh_view mesh(w.corners, sizeof(clip_point), 4, one_each_way, 6);
    for (const auto grade : {MASKCULL_NARROW, MASKCULL_WIDE}) {
        for (unsigned k = 0; k < 4 * 3 * 3 * 4; k++) {
            const auto of_frame = static_cast<maskcull_winding>(k / 4 % 3), first = of_frame;
            const auto second = static_cast<maskcull_winding>(k / 12 % 3);
            float near_distance = 1;
            auto frame = maskcull::frame::make(128, 64, near_distance, of_frame, grade);
            if (!frame) return expect(false, "no frame of a good winding", k);
            maskcull::occluders made;
            frame->prepare_into(made, m.numbers, mesh);
            const auto expected = drawn_in_c(*frame, made, first, second);
            expect(draw_in_a_way(*frame, k % 4, made, mesh, std::nullopt) == MASKCULL_DONE
                       && draw_in_a_way(*frame, k % 4, made, mesh, second) == MASKCULL_DONE,
                   "a draw with a winding is refused", k);
            expect(has_tiles(*frame, expected), "a winding of a draw leaves other tiles", k);
            expect(draw_in_a_way(*frame, k % 4, made, mesh, static_cast<maskcull_winding>(3)) == MASKCULL_BAD_SETUP
                       && has_tiles(*frame, expected),
                   "a draw with a winding that isn't one", k);
        }
    }
}

// A scene has a batch for each run of draws with one winding, at most 4,096.
void try_batches() {
    const wall w;
    auto frame = frame_of();
    if (!frame) return;
    const auto made = frame->prepare(w.corners, 4, &upper, 1);
    maskcull::recorder recorder;
    frame->record_to(&recorder);
    for (const std::size_t runs : {std::size_t{1}, std::size_t{2}, std::size_t{4096}, std::size_t{4097}}) {
        frame->clear();
        for (std::size_t k = 0; k < runs; k++) {
            const auto winding = k % 2 == 0 ? MASKCULL_DROPS_COUNTERCLOCKWISE : MASKCULL_KEEPS_BOTH;
            frame->draw(made, winding), frame->draw(made, winding);
            frame->draw(frame->prepare(w.corners, 4, &upper, 0), MASKCULL_DROPS_CLOCKWISE);
        }
        const auto bytes = recorder.scene();
        if (runs == 4097) return expect(bytes.empty(), "a scene of more batches than there can be");
        std::uint32_t numbers[6];
        expect(bytes.size() > 36, "no scene of so many batches", static_cast<unsigned>(runs));
        if (bytes.size() <= 36) continue;
        std::memcpy(numbers, bytes.data() + 12, sizeof numbers);
        const std::size_t triangles = numbers[2], first = 36 + 12 * numbers[1] + 12 * triangles;
        expect(numbers[5] == runs && triangles == 2 * runs, "batches of a scene", static_cast<unsigned>(runs));
        for (std::size_t k = 0; k < runs && first + 5 * k + 5 <= bytes.size(); k++) {
            const unsigned char *at = bytes.data() + first + 5 * k;
            expect(at[0] == 2 && at[1] + at[2] + at[3] == 0 && at[4] == (k % 2 == 0 ? 2 : 0), "a batch",
                   static_cast<unsigned>(k));
        }
    }
}

// Each reason why there is no frame.
void try_reasons() {
    using maskcull::refusal;
    const auto reason = [](std::uint32_t width, std::uint32_t height, const float &near_distance,
                           const maskcull::options &chosen, maskcull_grade grade = MASKCULL_WIDE) {
        refusal why = refusal::none;
        const auto frame = maskcull::frame::make(width, height, near_distance, chosen, grade, &why);
        expect(frame.has_value() == (why == refusal::none), "a frame and a reason, or neither", width, height);
        return why;
    };
    maskcull::options plain, odd_winding, flat;
    odd_winding.winding = static_cast<maskcull_winding>(3);
    flat.orthographic.emplace();
    float one = 1, bad_one;
    put(bad_one, bad[0]);
    for (const auto &size : {std::pair{1u, 1u}, {2048u, 2048u}, {1366u, 767u}, {5u, 2047u}}) {
        expect(reason(size.first, size.second, one, plain) == refusal::none, "no frame", size.first, size.second);
    }
    for (const auto &size : {std::pair{0u, 9u}, {9u, 0u}, {0u, 0u}}) {
        expect(reason(size.first, size.second, one, plain) == refusal::no_pixels, "no pixels", size.first, size.second);
    }
    for (const auto &size : {std::pair{2049u, 9u}, {9u, 2049u}, {3840u, 2160u}, {0xffffffffu, 1u}, {1u, 0xfffffffcu}}) {
        expect(reason(size.first, size.second, one, plain) == refusal::too_large, "too large", size.first, size.second);
    }
    expect(reason(9, 9, bad_one, plain) == refusal::bad_near_distance, "a bad near distance");
    expect(reason(9, 9, bad_one, flat) == refusal::none, "an orthographic frame of any near distance");
    expect(reason(9, 9, one, odd_winding) == refusal::bad_winding, "a bad winding");
    expect(reason(9, 9, one, plain, static_cast<maskcull_grade>(1)) == refusal::bad_grade, "a bad grade");
    for (const std::uint32_t bits : bad) {
        for (const bool is_near : {true, false}) {
            maskcull::options odd = flat;
            put(is_near ? odd.orthographic->at_near : odd.orthographic->at_far, bits);
            expect(reason(9, 9, one, odd) == refusal::bad_depths, "a bad depth", 0, 0, bits);
        }
    }
    for (const auto &[at_near, at_far] : {std::pair{1.0f, 1.0f}, {0.0f, 0.0f}, {-3.0f, -3.0f}, {5000.0f, 5001.0f}}) {
        flat.orthographic = maskcull::depth_range{at_near, at_far};
        expect(reason(9, 9, one, flat) == refusal::bad_depths, "depths that are the same");
    }
    for (unsigned k = 0; k <= static_cast<unsigned>(refusal::bad_depths); k++) {
        expect(std::strlen(maskcull::text_of(static_cast<refusal>(k))) > 10, "a reason without words", k);
    }
}

// A near distance for a clearing: as a frame that was made with it, without memory. After a bad one nothing hides.
void try_clearings() {
    const plain_matrix m;
    const wall w(false);
    auto frame = frame_of();
    if (!frame || frame->draw(m.numbers, mesh_of(w)) != MASKCULL_DONE) return expect(false, "no frame");
    unsigned long before = memory_asked;
    for (const int power : {-3, 1, 0, -131, -1}) {
        float near_distance;
        put(near_distance, bits_of(64, power));
        const auto other = maskcull::frame::make(128, 64, near_distance);
        auto made = maskcull::frame::make(128, 64, near_distance);
        expect(made && made->draw(m.numbers, mesh_of(w)) == MASKCULL_DONE, "a wall isn't drawn");
        before = memory_asked;
        expect(frame->clear(near_distance), "a good near distance", 0, 0, bits_of(64, power));
        expect(are_same(frame, other), "a frame isn't empty");
        expect(frame->draw(m.numbers, mesh_of(w)) == MASKCULL_DONE && are_same(frame, made), "another near distance");
        expect(memory_asked == before, "memory is asked for by a clearing");
        frame->clear();
        expect(frame->draw(m.numbers, mesh_of(w)) == MASKCULL_DONE && are_same(frame, made), "a near distance is kept");
        const box behind = box_between(-4 * 64, 64, 8 * 64);
        const bool is_within = power != -131;
        expect(is_hidden(*frame, behind) == is_within, "a box behind the wall", 0, 0, bits_of(64, power));
        for (const std::uint32_t bits : {bad[0], bad[6], bad[7], 0u, sign, 0xbf800000u}) {
            float odd;
            put(odd, bits);
            expect(!frame->clear(odd) && are_same(frame, other), "a bad near distance", 0, 0, bits);
            frame->clear();
            expect(frame->draw(m.numbers, mesh_of(w)) == MASKCULL_DONE && are_same(frame, other), "a wall is drawn");
            expect(frame->draw(frame->prepare(w.corners, 4, &upper, 1)) == MASKCULL_DONE && are_same(frame, other),
                   "a triangle is drawn");
            expect(!is_hidden(*frame, behind) && verdict_of(*frame, m, behind) == maskcull::verdict::visible
                       && frame->test_mesh(m.numbers, mesh_of(w)) == maskcull::verdict::visible,
                   "something is hidden or outside", 0, 0, bits);
        }
    }
}

// Windows of any size. The wall covers their left half: what is drawn at a sample is what a window of the next sizes
// that needn't be rounded up has there, by a matrix that takes pixels to the same places.
void try_sizes() {
    using maskcull::verdict;
    float near_distance = 1;
    const plain_matrix m;
    for (const auto &size : {std::pair{1u, 1u}, {2u, 3u}, {7u, 5u}, {9u, 4u}, {31u, 33u}, {100u, 50u}, {127u, 63u},
                             {129u, 65u}, {1366u, 767u}, {2047u, 2045u}}) {
        const std::uint32_t width = size.first, height = size.second;
        auto frame = maskcull::frame::make(width, height, near_distance);
        if (!frame || frame->setup().width % 8 != 0 || frame->setup().height % 4 != 0) {
            expect(false, "no frame", width, height);
            continue;
        }
        const wall half(false), whole;
        frame->draw(m.numbers, mesh_of(whole));
        std::vector<std::uint16_t> picture(frame->setup().width * frame->setup().height);
        const auto show = [&] {
            const auto status = maskcull_nearness(&frame->setup(), frame->tiles().data(), frame->tiles().size(),
                                                  picture.data(), picture.size(), frame->setup().width);
            expect(status == MASKCULL_DONE, "no picture", width, height);
        };
        show();
        bool is_covered = true;
        for (std::uint32_t y = 0; y < height; y++) {
            for (std::uint32_t x = 0; x < width; x++) is_covered &= picture[y * frame->setup().width + x] != 0;
        }
        expect(is_covered, "a wall over all of a window has a gap", width, height);
        const float low[3] = {-20, -20, 8}, high[3] = {20, 20, 9};
        expect(frame->test_aabb(m.numbers, low, high) == verdict::occluded, "a box past the window", width, height);
        const float beside[3] = {8.5f, -1, 8}, end[3] = {8.8f, 1, 8.1f};
        const auto found = frame->test_aabb(m.numbers, beside, end);
        expect(width < 64 || found == verdict::outside, "a box beside the window isn't outside", width, height);
        frame->clear();
        for (const maskcull_triangle &t : {upper, lower}) frame->draw(frame->prepare(half.corners, 4, &t, 1));
        show();
        bool is_half = true;
        for (std::uint32_t y = 0; y < height; y++) {
            for (std::uint32_t x = 0; x < width; x++) {
                if (2 * x + 1 == width) continue; // at the edge
                is_half &= (picture[y * frame->setup().width + x] != 0) == (2 * x + 1 < width);
            }
        }
        expect(is_half, "a wall over half of a window covers other pixels", width, height);
    }
}

// A matrix of an orthographic view, by columns: it leaves x and y and takes z to what is asked for.
struct flat_matrix {
    float numbers[16] = {1, 0, 0, 0, 0, 1, 0, 0, 0, 0, 1, 0, 0, 0, 0, 1};

    // a depth of z from 0 to 10
    explicit flat_matrix(const maskcull::depth_range &range, bool y_is_down = false) {
        numbers[10] = (range.at_far - range.at_near) / 10, numbers[14] = range.at_near;
        if (y_is_down) numbers[5] = -1;
    }

    void turn() {
        for (int j = 0; j < 4; j++) {
            for (int k = 0; k < j; k++) std::swap(numbers[4 * j + k], numbers[4 * k + j]);
        }
    }
};

// Orthographic views of each convention: a wall at z = 4 over the left half, and boxes about it.
void try_orthographic() {
    using maskcull::verdict;
    float bad_distance;
    put(bad_distance, bad[0]);
    const float at[4][3] = {{-2, 2, 4}, {0, 2, 4}, {0, -2, 4}, {-2, -2, 4}};
    const float from_near[4][3] = {{-1, 2, -4}, {0, 2, 4}, {0, -2, 4}, {-1, -2, -4}};
    const float to_far[4][3] = {{-1, 2, 4}, {-0.25f, 2, 13}, {-0.25f, -2, 13}, {-1, -2, 4}};
    const auto mesh_at = [](const float (&places)[4][3]) {
        return maskcull::mesh_view(places, sizeof places[0], 4, wall_indices, 6);
    };
    const auto box_at = [](maskcull::frame &frame, const flat_matrix &m, float x, float y, float z) {
        const float low[3] = {x - 0.1f, y - 0.1f, z}, high[3] = {x + 0.1f, y + 0.1f, z + 0.5f};
        return frame.test_aabb(m.numbers, low, high);
    };
    for (const auto &range : {maskcull::depth_range{-1, 1}, {0, 1}, {1, 0}, {100, 300}}) {
        for (unsigned k = 0; k < 4; k++) {
            maskcull::options chosen;
            chosen.orthographic = range;
            chosen.y_is_down = k % 2 == 1;
            chosen.matrices = k / 2 == 1 ? maskcull::matrix_layout::rows : maskcull::matrix_layout::columns;
            flat_matrix m(range, chosen.y_is_down);
            if (k / 2 == 1) m.turn();
            auto frame = maskcull::frame::make(k < 2 ? 128 : 127, k < 2 ? 64 : 61, bad_distance, chosen);
            if (!frame) return expect(false, "no orthographic frame", k);
            const auto none = frame->tiles();
            expect(frame->draw(m.numbers, mesh_at(at)) == MASKCULL_DONE, "a wall isn't drawn", k);
            expect(box_at(*frame, m, -0.5f, 0.5f, 5) == verdict::occluded, "a box behind the wall", k);
            expect(box_at(*frame, m, -0.5f, 0.5f, 4.01f) == verdict::occluded, "a box just behind the wall", k);
            expect(box_at(*frame, m, -0.5f, 0.5f, 50) == verdict::occluded, "a box past the far plane", k);
            expect(box_at(*frame, m, -0.5f, 0.5f, 4) == verdict::visible, "a box at the wall", k);
            expect(box_at(*frame, m, -0.5f, 0.5f, 2) == verdict::visible, "a box before the wall", k);
            expect(box_at(*frame, m, -0.5f, 0.5f, -2) == verdict::visible, "a box before the near plane", k);
            expect(box_at(*frame, m, 0.5f, 0.5f, 5) == verdict::visible, "a box beside the wall", k);
            expect(box_at(*frame, m, 0, 0.5f, 5) == verdict::visible, "a box past the wall's edge", k);
            expect(box_at(*frame, m, 1.5f, 0.5f, 5) == verdict::outside, "a box beside the window", k);
            expect(box_at(*frame, m, -0.5f, 1.5f, 5) == verdict::outside, "a box above the window", k);
            expect(frame->test_mesh(m.numbers, mesh_at(at)) == verdict::visible, "the wall itself", k);
            expect(frame->test_mesh(m.numbers, {at, 12, 4, wall_indices, 2}) == verdict::outside, "no triangle", k);
            const float behind[3][3] = {{-0.9f, 0.9f, 5}, {-0.1f, 0.9f, 5}, {-0.5f, -0.9f, 9}};
            expect(frame->test_mesh(m.numbers, {behind, 12, 3, wall_indices, 3}) == verdict::occluded, "a mesh", k);
            for (unsigned place = 0; place < 16; place++) {
                for (const std::uint32_t bits : bad) {
                    flat_matrix odd = m;
                    put(odd.numbers[place], bits);
                    expect(box_at(*frame, odd, -0.5f, 0.5f, 5) == verdict::visible, "a bad matrix", place, 0, bits);
                    expect(frame->test_mesh(odd.numbers, {behind, 12, 3, wall_indices, 3}) == verdict::visible,
                           "a mesh by a bad matrix", place, 0, bits);
                }
            }
            flat_matrix deep = m;
            deep.numbers[k / 2 == 1 ? 14 : 11] = 0.25f;
            expect(box_at(*frame, deep, -0.5f, 0.5f, 5) == verdict::visible, "a box by a matrix in perspective", k);
            frame->clear();
            expect(frame->draw(deep.numbers, mesh_at(at)) == MASKCULL_DONE && has_tiles(*frame, none),
                   "a wall by a matrix in perspective", k);
            expect(frame->clear(bad_distance), "a near distance of an orthographic view", k);
            // cut at the near plane, in the middle of the left half
            expect(frame->draw(m.numbers, mesh_at(from_near)) == MASKCULL_DONE, "a wall through the near plane", k);
            expect(box_at(*frame, m, -0.2f, 0.5f, 5) == verdict::occluded, "a box behind what is shown of it", k);
            expect(box_at(*frame, m, -0.35f, 0.5f, 3.5f) == verdict::occluded, "a box behind it, near its cut", k);
            expect(box_at(*frame, m, -0.35f, 0.5f, 1) == verdict::visible, "a box through it, near its cut", k);
            expect(box_at(*frame, m, -0.7f, 0.5f, 9) == verdict::visible, "a box behind what is cut off", k);
            frame->clear();
            // and at the far one, there too
            expect(frame->draw(m.numbers, mesh_at(to_far)) == MASKCULL_DONE, "a wall through the far plane", k);
            expect(box_at(*frame, m, -0.85f, 0.5f, 9.5f) == verdict::occluded, "a box behind what is shown of it", k);
            expect(box_at(*frame, m, -0.35f, 0.5f, 14) == verdict::visible, "a box behind what is cut off", k);
        }
    }
}

// A bad corner of an orthographic wall or object; points that are given without a matrix have z in place of w.
void try_bad_flat_corners() {
    maskcull::options chosen;
    chosen.orthographic = maskcull::depth_range{0, 1};
    float near_distance = 1;
    auto frame = maskcull::frame::make(128, 64, near_distance, chosen);
    auto other = maskcull::frame::make(128, 64, near_distance, chosen);
    if (!frame || !other) return expect(false, "no orthographic frame");
    const clip_point corners[4] = {{-2, 2, 0.25f}, {2, 2, 0.25f}, {2, -2, 0.25f}, {-2, -2, 0.25f}};
    const std::vector<maskcull_triangle> both = {upper, lower};
    const auto draw = [&](maskcull::frame &onto, const clip_point (&of)[4], const std::vector<maskcull_triangle> &all) {
        onto.clear();
        return onto.draw(onto.prepare(of, 4, all.data(), all.size())) == MASKCULL_DONE;
    };
    expect(draw(*frame, corners, both), "a wall isn't drawn");
    const clip_point behind[4] = {{-0.5f, 0.5f, 0.3f}, {0.5f, 0.5f, 2}, {0.5f, -0.5f, 0.3f}, {-0.5f, -0.5f, 0.5f}};
    expect(frame->is_hidden(behind, 4), "points behind a wall aren't hidden");
    for (unsigned k = 0; k < 4; k++) {
        for (unsigned axis = 0; axis < 3; axis++) {
            for (const std::uint32_t bits : bad) {
                clip_point odd[4];
                std::copy(behind, behind + 4, odd);
                put(odd[k], axis, bits);
                expect(!frame->is_hidden(odd, 4), "a bad point is hidden", k, axis, bits);
                std::copy(corners, corners + 4, odd);
                put(odd[k], axis, bits);
                const std::vector<maskcull_triangle> left = k == 1   ? std::vector{lower}
                                                            : k == 3 ? std::vector{upper}
                                                                     : std::vector<maskcull_triangle>{};
                auto third = maskcull::frame::make(128, 64, near_distance, chosen);
                expect(third && draw(*third, corners, left) && draw(*other, odd, both) && are_same(third, other),
                       "a bad corner of a wall", k, axis, bits);
            }
        }
        for (const std::uint32_t bits : {0x3e4ccccdu, 0u, 0xbf800000u}) { // .2, 0 and -1: before the wall
            clip_point odd[4];
            std::copy(behind, behind + 4, odd);
            put(odd[k], 2, bits);
            expect(!frame->is_hidden(odd, 4), "a point before the wall is hidden", k, 2, bits);
        }
    }
}

} // namespace

int main() {
    const auto frame = drawn(wall(), {upper, lower});
    if (!frame) return 1;
    try_near_distances();
    try_bad_corners(*frame);
    try_good_corners(*frame);
    try_bad_occluders();
    try_far_occluders();
    try_near_plane();
    try_units();
    try_reckoned(*frame);
    try_matrices();
    try_bad_meshes(*frame);
    try_great_terms(*frame);
    try_mesh_units();
    try_ground();
    try_room();
    try_windings();
    try_batches();
    try_reasons();
    try_clearings();
    try_sizes();
    try_orthographic();
    try_bad_flat_corners();
    std::printf("%u answers, %u of them wrong\n", answers, wrong);
    return wrong == 0 ? 0 : 1;
}
