// maskcull's profile in plain C++ of whole numbers: the same verdicts and counts. With --exact the verdicts are those
// of an exact z-buffer over the same pieces.
#include "exact.hpp"
#include "run.hpp"
#include "tiles.hpp"

namespace rivals {
namespace {

// Draws into a buffer of depths and tests objects against it.
template <class Buffer>
class Culler {
public:
    explicit Culler(const Scene& scene)
        : scene_(scene), snapping_(scene), buffer_(scene),
          screen_(scene.vertices.size() < 3 * scene.occluders.size() ? scene.vertices.size() : 0) {}

    void cull(const Camera& camera, Frame& frame) {
        frame.pieces = 0;
        buffer_.clear();
        for (std::size_t k = 0; k < screen_.size(); ++k)
            screen_[k] = placed(camera, k);
        const Triangle* triangle = scene_.occluders.data();
        for (const Batch& batch : scene_.batches)
            for (std::uint32_t k = 0; k < batch.count; ++k, ++triangle)
                frame.pieces += draw(camera, *triangle, batch.winding);
        for (std::size_t k = 0; k < scene_.objects.size(); ++k)
            frame.verdicts[k] = verdict_of(camera, scene_.objects[k]);
    }

private:
    ScreenVertex placed(const Camera& camera, std::size_t number) const {
        return snapping_.place(Snapping::clip(camera, scene_.vertices[number]));
    }

    void clips_of(const Camera& camera, const Triangle& triangle, Clip out[3]) const {
        for (std::size_t k = 0; k < 3; ++k) out[k] = Snapping::clip(camera, scene_.vertices[triangle[k]]);
    }

    // Draws a triangle; gives how many pieces it has.
    std::size_t draw(const Camera& camera, const Triangle& triangle, Winding winding) {
        const auto corner = [&](std::size_t k) {
            return screen_.empty() ? placed(camera, triangle[k]) : screen_[triangle[k]];
        };
        const ScreenVertex a = corner(0), b = corner(1), c = corner(2);
        if (int(a.state) + int(b.state) + int(c.state) == 0) {
            Piece piece;
            if (!Snapping::set_up(a.point, b.point, c.point, winding, piece)) return 0;
            buffer_.draw(piece);
            return 1;
        }
        if (a.state != State::placed && b.state != State::placed && c.state != State::placed) return 0;
        Clip clips[3];
        clips_of(camera, triangle, clips);
        const Pieces pieces = snapping_.pieces_of(clips, Side::occluder, winding);
        for (int k = 0; k < pieces.count; ++k) buffer_.draw(pieces.all[k]);
        return std::size_t(pieces.count);
    }

    Verdict verdict_of(const Camera& camera, const Object& object) {
        if (object.kind == BOX) return box_verdict(camera, object);
        if (object.kind == MESH) return mesh_verdict(camera, object);
        const auto& n = object.numbers;
        const Rect rect = {std::max(n[0], 0), std::max(n[1], 0), std::min(n[2], scene_.width),
                           std::min(n[3], scene_.height)};
        if (rect.is_empty()) return Verdict::outside;
        return n[4] < scene_.near_distance ? Verdict::visible : tested(rect, snapping_.nearness(n[4], Side::object));
    }

    Verdict tested(const Rect& rect, std::int32_t nearness) const {
        if (rect.is_empty()) return Verdict::outside;
        return buffer_.hides(rect, nearness) ? Verdict::occluded : Verdict::visible;
    }

    // Whether all eight corners of a box are in front, or a verdict.
    bool is_in_front(const Clip corners[8], Verdict& verdict) const {
        int behind = 0, past = 0;
        for (int k = 0; k < 8; ++k) {
            behind += snapping_.is_behind(corners[k]);
            past += snapping_.is_past_guard(corners[k]);
        }
        verdict = behind == 8 ? Verdict::outside : Verdict::visible;
        return behind + past == 0;
    }

    // The eight corners of a box, by eighteen products.
    static void corners_of(const Camera& camera, const Object& box, Clip out[8]) {
        std::int64_t sums[3][8];
        for (std::size_t row = 0; row < 3; ++row) {
            std::int64_t part[3][2];
            for (std::size_t k = 0; k < 6; ++k)
                part[k % 3][k / 3] = std::int64_t(camera[4 * row + k % 3]) * box.numbers[k];
            for (int k = 0; k < 8; ++k)
                sums[row][k] = ((part[0][k & 1] + part[1][k >> 1 & 1] + part[2][k >> 2]) >> 16) + camera[4 * row + 3];
        }
        for (int k = 0; k < 8; ++k) out[k] = {sums[0][k], sums[1][k], sums[2][k]};
    }

    Verdict box_verdict(const Camera& camera, const Object& box) const {
        Clip corners[8];
        corners_of(camera, box, corners);
        Verdict verdict;
        if (!is_in_front(corners, verdict)) return verdict;
        // places grow with x over w, and with -y over w: products find which corners have the least and the greatest
        const Clip *left = corners, *right = corners, *upper = corners, *lower = corners;
        std::int64_t nearest = corners[0].w;
        for (const Clip* clip = corners + 1; clip < corners + 8; ++clip) {
            left = clip->x * left->w < left->x * clip->w ? clip : left;
            right = clip->x * right->w > right->x * clip->w ? clip : right;
            upper = clip->y * upper->w > upper->y * clip->w ? clip : upper;
            lower = clip->y * lower->w < lower->y * clip->w ? clip : lower;
            nearest = std::min(nearest, clip->w);
        }
        const Rect rect = {std::max(snapping_.x_of(*left) >> 4, 0), std::max(snapping_.y_of(*upper) >> 4, 0),
                           std::min((snapping_.x_of(*right) >> 4) + 1, scene_.width),
                           std::min((snapping_.y_of(*lower) >> 4) + 1, scene_.height)};
        return tested(rect, snapping_.nearness(nearest, Side::object));
    }

    Verdict mesh_verdict(const Camera& camera, const Object& mesh) {
        const Triangle* triangles = scene_.object_triangles.data() + mesh.numbers[0];
        bool all_behind = true, any_past = false;
        Clip clips[3];
        for (int k = 0; k < mesh.numbers[1]; ++k) {
            clips_of(camera, triangles[k], clips);
            for (const Clip& clip : clips) {
                all_behind = all_behind && snapping_.is_behind(clip);
                any_past = any_past || snapping_.is_past_guard(clip);
            }
        }
        if (all_behind) return Verdict::outside;
        if (any_past) return Verdict::visible;
        return mesh_tested(camera, triangles, mesh.numbers[1]);
    }

    Verdict mesh_tested(const Camera& camera, const Triangle* triangles, int count) {
        bool on_screen = false, is_touched = false, hidden = true;
        Clip clips[3];
        Point points[4];
        for (int k = 0; k < count; ++k) {
            clips_of(camera, triangles[k], clips);
            const int size = snapping_.near_part(clips, Side::object, points);
            if (size > 0)
                on_screen = on_screen || !pixels_around(points, size, scene_.width, scene_.height).is_empty();
            const Pieces pieces = snapping_.pieces_of(clips, Side::object, KEEPS_BOTH);
            for (int p = 0; p < pieces.count; ++p) hidden = buffer_.hides(pieces.all[p], is_touched) && hidden;
        }
        if (!on_screen) return Verdict::outside;
        return is_touched && hidden ? Verdict::occluded : Verdict::visible;
    }

    const Scene& scene_;
    Snapping snapping_;
    Buffer buffer_;
    // The vertices of a frame, where triangles share some; otherwise each is put on the screen as it is drawn.
    std::vector<ScreenVertex> screen_;
};

}  // namespace
}  // namespace rivals

int main(int count, char** words) {
    using namespace rivals;
    return guarded([&] {
        const Words given = words_of(count, words);
        const Scene scene = read_scene(stdin);
        return given.exact ? run<Culler<ExactDepths>>(scene, given) : run<Culler<Tiles>>(scene, given);
    });
}
