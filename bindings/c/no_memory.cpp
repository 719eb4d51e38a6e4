// The calls with an allocator that fails at the n-th call, for each n until none fails: each call returns what the
// header says, what is tested then is visible, the frame can be used on, and nothing leaks.
#include "maskcull_frame.h"

#include <cstdint>
#include <cstdio>
#include <cstdlib>
#include <new>

namespace {

// Allocations until one fails; below 0 none does.
long left_over = -1;
bool has_failed = false;

int faults = 0;

void is(const char *what, long n, std::uint32_t found, std::uint32_t wanted) {
    if (found == wanted) return;
    std::printf("allocation %ld, %s: %u, not %u\n", n, what, found, wanted);
    faults++;
}

const float clip[16] = {1, 0, 0, 0, 0, 1, 0, 0, 0, 0, -1, -1, 0, 0, -0.25f, 0}, box[6] = {-1, -1, -9, 1, 1, -8};
const float wall[4][3] = {{-9, 9, -4}, {9, 9, -4}, {9, -9, -4}, {-9, -9, -4}};
// it reaches past what can be drawn, so it is cut, which takes memory of its own
const float road[4][3] = {{-9, -2, -4}, {9, -2, -4}, {9, -2, -1e6f}, {-9, -2, -1e6f}};
const std::uint16_t quad[] = {0, 1, 2, 0, 2, 3};

std::uint32_t draw(maskcull_frame *frame, const float (&mesh)[4][3]) {
    return maskcull_frame_draw(frame, clip, mesh, sizeof mesh[0], 4, quad, 2, 6, MASKCULL_OWN_WINDING);
}

std::uint32_t verdict(const maskcull_frame *frame) {
    std::uint8_t found = 0;
    maskcull_frame_test_boxes(frame, clip, box, 1, &found);
    return found;
}

// Whether an allocation failed from here on.
bool failed_since(bool &was) {
    const bool is_new = has_failed && !was;
    was = has_failed;
    return is_new;
}

// What a call on a frame that may not be there returns.
std::uint32_t status_of(const maskcull_frame *frame, bool has_failed_now) {
    if (frame == nullptr) return MASKCULL_NULL;
    return has_failed_now ? std::uint32_t{MASKCULL_NO_MEMORY} : std::uint32_t{MASKCULL_DONE};
}

// All calls on a frame of a window that isn't whole tiles, so that its picture takes memory too.
void run(long n) {
    std::uint16_t picture[61 * 31];
    std::uint32_t reason = 0;
    bool was = false;
    left_over = n, has_failed = false;
    maskcull_frame *frame = maskcull_frame_make(61, 31, 0.1f, nullptr, &reason);
    is("make", n, reason, failed_since(was) ? MASKCULL_FRAME_NO_MEMORY : MASKCULL_FRAME_MADE);
    is("a frame", n, frame != nullptr, reason == MASKCULL_FRAME_MADE);
    const std::uint32_t road_status = draw(frame, road);
    is("the road", n, road_status, status_of(frame, failed_since(was)));
    const std::uint32_t status = draw(frame, wall);
    is("the wall", n, status, status_of(frame, failed_since(was)));
    is("a box", n, verdict(frame), status == MASKCULL_DONE ? MASKCULL_OCCLUDED : MASKCULL_VISIBLE);
    is("a mesh", n, maskcull_frame_test_mesh(frame, clip, wall, 12, 4, quad, 2, 6), MASKCULL_VISIBLE);
    const std::uint32_t shown = maskcull_frame_nearness(frame, picture, 61 * 31, 61);
    is("a picture", n, shown, status_of(frame, failed_since(was)));
    left_over = -1;
    if (frame == nullptr) return;
    maskcull_frame_clear(frame);
    is("cleared", n, verdict(frame), MASKCULL_VISIBLE);
    is("drawn again", n, draw(frame, road) | draw(frame, wall), MASKCULL_DONE);
    is("hidden", n, verdict(frame), MASKCULL_OCCLUDED);
    maskcull_frame_free(frame);
}

} // namespace

void *operator new(std::size_t bytes) {
    if (left_over == 0) {
        has_failed = true, left_over = -1;
        throw std::bad_alloc();
    }
    if (left_over > 0) left_over--;
    if (void *place = std::malloc(bytes != 0 ? bytes : 1)) return place;
    throw std::bad_alloc();
}

void operator delete(void *place) noexcept { std::free(place); }
void operator delete(void *place, std::size_t) noexcept { std::free(place); }

int main() {
    long n = 0;
    do {
        run(n++);
    } while (has_failed && n < 10000);
    std::printf("%ld allocations failed one by one, %d faults\n", n - 1, faults);
    return faults != 0 || has_failed || n < 5;
}
