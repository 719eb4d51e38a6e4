// How a program calls that is written for Intel's library: each call that include/intel/MaskedOcclusionCulling.h has,
// with its defaults and without. It says which answer isn't the one that is told behind it.
#include "MaskedOcclusionCulling.h"

#include <cstdio>
#include <thread>
#include <vector>

using MOC = MaskedOcclusionCulling;

namespace {

int faults = 0;

void is(const char *what, double found, double wanted) {
    if (found == wanted) return;
    std::printf("%s: %g, not %g\n", what, found, wanted);
    faults++;
}

const int width = 1280, height = 720;
const auto all = MOC::CLIP_PLANE_ALL;
const MOC::VertexLayout packed(12, 4, 8);

// x, y, z, w in clip space, counterclockwise: a wall at distance 4 over the left half of the screen
const float wall[] = {-4, 4, 0, 4, -4, -4, 0, 4, 0, -4, 0, 4, 0, 4, 0, 4};
const unsigned quad[] = {0, 1, 2, 0, 2, 3}, turned[] = {2, 1, 0, 3, 2, 0};

// The same through a matrix, as x, y, z alone.
const float to_clip[16] = {1, 0, 0, 0, 0, 1, 0, 0, 0, 0, -1, -1, 0, 0, -0.2f, 0};
const float wall_in_world[] = {-4, 4, -4, -4, -4, -4, 0, -4, -4, 0, 4, -4};

void before_it_is_ready(MOC *moc) {
    is("not ready", moc->IsReady(), 0);
    moc->ClearBuffer();
    is("drawn before", moc->RenderTriangles(wall, quad, 2), MOC::VISIBLE);
    is("a rectangle before", moc->TestRect(-0.9f, -0.5f, -0.1f, 0.5f, 8), MOC::VISIBLE);
    is("triangles before", moc->TestTriangles(wall, quad, 2), MOC::VISIBLE);
    moc->SetResolution(width, height);
    is("without a near distance", moc->IsReady(), 0);
    moc->SetNearClipPlane(0.1f);
    is("ready", moc->IsReady(), 1);
    is("the near distance", moc->GetNearClipPlane(), 0.1f);
    is("an implementation", moc->GetImplementation(), MOC::SSE41);
    unsigned columns, rows;
    moc->GetResolution(columns, rows);
    is("the size", columns == width && rows == height, 1);
}

void draw_and_test(MOC *moc) {
    moc->ClearBuffer();
    is("drawn", moc->RenderTriangles(wall, quad, 2), MOC::VISIBLE);
    is("behind", moc->TestRect(-0.9f, -0.5f, -0.1f, 0.5f, 8), MOC::OCCLUDED);
    is("in front", moc->TestRect(-0.9f, -0.5f, -0.1f, 0.5f, 2), MOC::VISIBLE);
    is("across its edge", moc->TestRect(-0.5f, -0.5f, 0.1f, 0.5f, 8), MOC::VISIBLE);
    is("beside the screen", moc->TestRect(1.1f, -0.5f, 1.5f, 0.5f, 8), MOC::VIEW_CULLED);
    is("no triangle", moc->RenderTriangles(wall, quad, 0), MOC::VIEW_CULLED);
    const float far_quad[] = {-6, 1, -8, -6, -1, -8, -2, -1, -8, -2, 1, -8};
    const float back[] = {-6, 1, 8, -6, -1, 8, -2, -1, 8, -2, 1, 8};
    is("a quad behind", moc->TestTriangles(far_quad, quad, 2, to_clip, MOC::BACKFACE_CW, all, packed),
       MOC::OCCLUDED);
    is("behind the eye", moc->TestTriangles(back, quad, 2, to_clip, MOC::BACKFACE_CW, all, packed),
       MOC::VIEW_CULLED);
    is("drawn behind the eye", moc->RenderTriangles(back, quad, 2, to_clip, MOC::BACKFACE_NONE, all, packed),
       MOC::VIEW_CULLED);
    is("a hidden one that faces away",
       moc->RenderTriangles(far_quad, turned, 2, to_clip, MOC::BACKFACE_CW, all, packed), MOC::VISIBLE);
    const float behind[] = {-6, 1, 0, 8, -6, -1, 0, 8, -2, -1, 0, 8};
    is("a triangle behind", moc->TestTriangles(behind, quad, 1), MOC::OCCLUDED);
    const float scattered[] = {9, -6, 9, 8, 1, 9, -6, 9, 8, -1, 9, -2, 9, 8, -1};
    const MOC::VertexLayout other(20, 12, 8);
    is("by another layout",
       moc->TestTriangles(scattered + 1, quad, 1, nullptr, MOC::BACKFACE_NONE, MOC::CLIP_PLANE_NONE, other),
       MOC::OCCLUDED);
}

void draw_by_windings(MOC *moc) {
    moc->ClearBuffer();
    moc->RenderTriangles(wall, turned, 2);
    is("clockwise isn't drawn", moc->TestRect(-0.9f, -0.5f, -0.1f, 0.5f, 8), MOC::VISIBLE);
    moc->RenderTriangles(wall, quad, 2, nullptr, MOC::BACKFACE_CCW);
    is("counterclockwise isn't drawn", moc->TestRect(-0.9f, -0.5f, -0.1f, 0.5f, 8), MOC::VISIBLE);
    moc->RenderTriangles(wall, turned, 2, nullptr, MOC::BACKFACE_NONE);
    is("both are", moc->TestRect(-0.9f, -0.5f, -0.1f, 0.5f, 8), MOC::OCCLUDED);
    moc->ClearBuffer();
    moc->RenderTriangles(wall_in_world, quad, 2, to_clip, MOC::BACKFACE_CW, MOC::CLIP_PLANE_SIDES, packed);
    is("through a matrix", moc->TestRect(-0.9f, -0.5f, -0.1f, 0.5f, 8), MOC::OCCLUDED);
}

void transform() {
    float made[16];
    MOC::TransformVertices(to_clip, wall_in_world, made, 4);
    for (int k = 0; k < 4; k++) {
        is("x", made[4 * k], wall_in_world[3 * k]);
        is("y", made[4 * k + 1], wall_in_world[3 * k + 1]);
        is("w", made[4 * k + 3], 4);
    }
    float others[16];
    MOC::TransformVertices(to_clip, wall, others, 4, MOC::VertexLayout(16, 4, 8));
    is("w where z is 0", others[3], 0);
}

// A thread for each bin.
void render_bins(MOC *moc, MOC::TriList *lists, unsigned columns, unsigned rows) {
    unsigned bin_width, bin_height;
    moc->ComputeBinWidthHeight(columns, rows, bin_width, bin_height);
    std::vector<std::thread> threads;
    for (unsigned k = 0; k < columns * rows; k++) {
        threads.emplace_back([=] {
            const unsigned x = k % columns, y = k / columns;
            const MOC::ScissorRect part(static_cast<int>(x * bin_width), static_cast<int>(y * bin_height),
                                        x + 1 == columns ? width : static_cast<int>((x + 1) * bin_width),
                                        y + 1 == rows ? height : static_cast<int>((y + 1) * bin_height));
            moc->RenderTrilist(lists[k], &part);
        });
    }
    for (std::thread &thread : threads) thread.join();
}

void draw_by_bins(MOC *moc) {
    std::vector<float> depths(width * height), binned(width * height), flipped(width * height);
    moc->ClearBuffer();
    moc->RenderTriangles(wall, quad, 2);
    moc->ComputePixelDepthBuffer(depths.data(), false);
    moc->ComputePixelDepthBuffer(flipped.data(), true);
    is("1 / w at the left", depths[360 * width + 320] <= 0.25f && depths[360 * width + 320] > 0.2499f, 1);
    is("1 / w at the right", depths[360 * width + 960], -1);
    is("flipped", flipped[0], depths[(height - 1) * width]);
    const unsigned columns = 2, rows = 2, room_of_one = 16;
    for (const bool is_plain : {true, false}) {
        moc->ClearBuffer();
        std::vector<float> room(9 * room_of_one * columns * rows);
        MOC::TriList lists[columns * rows];
        for (unsigned k = 0; k < columns * rows; k++) lists[k] = {room_of_one, 0, &room[9 * room_of_one * k]};
        if (is_plain) {
            moc->BinTriangles(wall, quad, 2, lists, columns, rows);
        } else {
            moc->BinTriangles(wall_in_world, quad, 2, lists, columns, rows, to_clip, MOC::BACKFACE_CW, all, packed);
        }
        render_bins(moc, lists, columns, rows);
        moc->ComputePixelDepthBuffer(binned.data(), false);
        is("the picture by bins", binned == depths, 1);
    }
}

} // namespace

int main() {
    MOC *moc = MOC::Create(), *other = MOC::Create(MOC::AVX2);
    before_it_is_ready(moc);
    draw_and_test(moc);
    draw_by_windings(moc);
    transform();
    draw_by_bins(moc);
    other->SetNearClipPlane(1);
    other->SetResolution(2049, 8);
    is("too wide", other->IsReady(), 0);
    MOC::Destroy(moc), MOC::Destroy(other);
    std::printf("%d faults\n", faults);
    return faults != 0;
}
