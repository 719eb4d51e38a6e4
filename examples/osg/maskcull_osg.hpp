// SPDX-License-Identifier: MIT OR Apache-2.0
//
// maskcull in OpenSceneGraph 3.6: drawables that others hide aren't rendered.
//
//     maskcull_osg::install();    // before a viewer is made
//
// It puts a subclass of CullVisitor in place of OpenSceneGraph's own, which clones it for each view. A frame is
// traversed twice. In the first turn opaque drawables are drawn as occluders, in the second each drawable's bounding
// box is tested. Both turns go where OpenSceneGraph goes, past masks, switches, levels of detail and its own culling:
// so only what is rendered hides. docs/ENGINES.md tells what a scene has to heed.
#ifndef MASKCULL_OSG_HPP
#define MASKCULL_OSG_HPP

#include "maskcull.hpp"

#include <osg/Billboard>
#include <osg/ClipNode>
#include <osg/ColorMask>
#include <osg/CullFace>
#include <osg/Geometry>
#include <osg/LOD>
#include <osg/LightSource>
#include <osg/OcclusionQueryNode>
#include <osg/Projection>
#include <osg/Switch>
#include <osg/TexGenNode>
#include <osg/TriangleIndexFunctor>
#include <osgUtil/CullVisitor>

#include <map>
#include <typeinfo>

namespace maskcull_osg {

/// For all views. An occluder that is smaller on the screen costs more than it hides.
struct settings {
    bool is_on = true;
    float least_pixels = 32;
};

inline settings &chosen() {
    static settings all;
    return all;
}

// A geometry's triangles, with what they were made of: while that is held here no other has its address.
struct mesh : osg::Referenced {
    osg::ref_ptr<const osg::Array> array;
    std::vector<std::pair<osg::ref_ptr<const osg::PrimitiveSet>, unsigned>> sets;
    unsigned modified = 0;
    std::vector<osg::Vec3> points;
    std::vector<std::uint32_t> numbers;

    bool is_of(const osg::Geometry &g) const {
        if (array != g.getVertexArray() || sets.size() != g.getNumPrimitiveSets()) return false;
        if (array && array->getModifiedCount() != modified) return false;
        for (unsigned k = 0; k < sets.size(); k++) {
            const osg::PrimitiveSet *set = g.getPrimitiveSet(k);
            if (sets[k].first != set || sets[k].second != set->getModifiedCount()) return false;
        }
        return true;
    }
};

struct triangle_taker {
    std::vector<std::uint32_t> *to = nullptr;

    void operator()(unsigned a, unsigned b, unsigned c) {
        if (a != b && b != c && c != a) to->insert(to->end(), {a, b, c});
    }
};

// The meshes of all views. What was freed in the scene stays here up to `forget`.
struct mesh_store {
    std::mutex busy;
    std::map<const osg::Geometry *, osg::ref_ptr<mesh>> meshes;

    osg::ref_ptr<const mesh> mesh_of(const osg::Geometry &g) {
        std::lock_guard<std::mutex> lock(busy);
        osg::ref_ptr<mesh> &kept = meshes[&g];
        if (kept && kept->is_of(g)) return kept;
        kept = new mesh;
        kept->array = g.getVertexArray();
        for (unsigned k = 0; k < g.getNumPrimitiveSets(); k++) {
            kept->sets.emplace_back(g.getPrimitiveSet(k), g.getPrimitiveSet(k)->getModifiedCount());
        }
        const auto *points = dynamic_cast<const osg::Vec3Array *>(g.getVertexArray());
        if (points == nullptr) return kept;
        kept->modified = points->getModifiedCount();
        kept->points.assign(points->begin(), points->end());
        osg::TriangleIndexFunctor<triangle_taker> functor;
        functor.to = &kept->numbers;
        g.accept(functor);
        return kept;
    }
};

inline mesh_store &store() {
    static mesh_store all;
    return all;
}

inline void forget() {
    std::lock_guard<std::mutex> lock(store().busy);
    store().meshes.clear();
}

/// `Frame` has the calls of maskcull::frame.
template <class Frame> class basic_cull_visitor : public osgUtil::CullVisitor {
public:
    using osgUtil::CullVisitor::apply;

    basic_cull_visitor() = default;
    basic_cull_visitor(const basic_cull_visitor &other)
        : osg::Object(other), osgUtil::CullVisitor(other) {}
    osgUtil::CullVisitor *clone() const override { return new basic_cull_visitor(*this); }

    void reset() override {
        osgUtil::CullVisitor::reset();
        is_cleared_ = false;
    }

    void apply(osg::Node &n) override { enter(n); }
    void apply(osg::Geode &n) override { enter(n); }
    void apply(osg::Group &n) override { enter(n); }
    void apply(osg::Transform &n) override { enter(n); }
    void apply(osg::Switch &n) override { enter(n); }
    void apply(osg::LOD &n) override { enter(n); }

    // What would be added twice, or cut, or turned to the eye: below it there are no occluders, or it isn't added.
    void apply(osg::LightSource &n) override { turn_ == drawing ? traverse(n) : CullVisitor::apply(n); }
    void apply(osg::TexGenNode &n) override { turn_ == drawing ? traverse(n) : CullVisitor::apply(n); }
    void apply(osg::ClipNode &n) override { if (turn_ != drawing) CullVisitor::apply(n); }
    void apply(osg::Billboard &n) override { if (turn_ != drawing) CullVisitor::apply(n); }

    // These have a projection of their own, and no part in either turn.
    void apply(osg::Projection &n) override { leave_alone(n); }
    void apply(osg::Camera &n) override { leave_alone(n); }
    void apply(osg::OcclusionQueryNode &n) override { leave_alone(n); }

    void apply(osg::Drawable &d) override {
        if (turn_ == drawing) return draw(d);
        if (turn_ != testing || !is_hidden(d)) return CullVisitor::apply(d);
        // so that the range of depths stays what it is without culling
        if (getComputeNearFarMode() != DO_NOT_COMPUTE_NEAR_FAR) updateCalculatedNearFar(*getModelViewMatrix(), d);
    }

private:
    enum turn { idle, drawing, testing, other };

    template <class Node> void enter(Node &n) {
        if (turn_ != idle || !chosen().is_on || !begin(n)) return CullVisitor::apply(n);
        turn_ = drawing;
        CullVisitor::apply(n);
        turn_ = testing;
        CullVisitor::apply(n);
        turn_ = idle;
    }

    template <class Node> void leave_alone(Node &n) {
        if (turn_ == drawing) return;
        const turn before = turn_;
        turn_ = other;
        CullVisitor::apply(n);
        turn_ = before;
    }

    // A frame of the viewport's size, empty where this is the first node of a view.
    bool begin(osg::Node &n) {
        const osg::Viewport *port = getViewport();
        const osg::Matrix &p = *getProjectionMatrix();
        if (port == nullptr || p(0, 3) != 0 || p(1, 3) != 0) return false;
        const bool is_flat = p(2, 3) == 0 && p(3, 3) == 1, is_in_perspective = p(2, 3) == -1 && p(3, 3) == 0;
        if (!is_flat && !is_in_perspective) return false;
        if (is_cleared_) return frame_.has_value();
        const auto width = static_cast<unsigned>(port->width()), height = static_cast<unsigned>(port->height());
        if (!frame_ || width != width_ || height != height_ || is_flat != is_flat_) {
            maskcull::options how;
            how.winding = MASKCULL_DROPS_CLOCKWISE; // what runs so is seen from behind
            if (is_flat) how.orthographic = maskcull::depth_range{-1, 1};
            frame_ = Frame::make(width, height, 1.0f, how);
            width_ = width, height_ = height, is_flat_ = is_flat;
        }
        if (!frame_) return false;
        is_cleared_ = frame_->clear(static_cast<float>(near_distance(n)));
        return is_cleared_;
    }

    // One that isn't before the renderer's. Where that is computed it is at the nearest drawable, or, farther, at the
    // far plane's distance times a ratio; and the far plane is within what there is in the view.
    double near_distance(osg::Node &n) {
        double left, right, bottom, top, near_z = 1, far_z;
        getProjectionMatrix()->getFrustum(left, right, bottom, top, near_z, far_z);
        if (getComputeNearFarMode() == DO_NOT_COMPUTE_NEAR_FAR) return near_z;
        osg::BoundingSphere all = n.getBound();
        if (const osg::Camera *camera = getCurrentCamera()) {
            for (unsigned k = 0; k < camera->getNumChildren(); k++) all.expandBy(camera->getChild(k)->getBound());
        }
        const double away = (all.center() * *getModelViewMatrix()).length() + all.radius();
        return getNearFarRatio() * away * (1 + 1e-6);
    }

    struct matrix {
        float numbers[16];
    };

    // For row vectors, row by row: as column vectors take it, column by column.
    matrix to_clip() {
        const osg::Matrix all = *getModelViewMatrix() * *getProjectionMatrix();
        matrix made;
        for (int k = 0; k < 16; k++) made.numbers[k] = static_cast<float>(all.ptr()[k]);
        return made;
    }

    bool is_hidden(const osg::Drawable &d) {
        const osg::BoundingBox &b = d.getBoundingBox();
        if (!b.valid()) return false;
        return frame_->test_aabb(to_clip().numbers, b._min.ptr(), b._max.ptr()) == maskcull::verdict::occluded;
    }

    void draw(osg::Drawable &d) {
        const auto *g = dynamic_cast<const osg::Geometry *>(&d);
        if (g == nullptr || typeid(*g) != typeid(osg::Geometry) || d.getCullCallback() || d.getDrawCallback()) return;
        if (d.isCullingActive() && isCulled(d.getBoundingBox())) return;
        if (std::fabs(pixelSize(d.getBound())) < chosen().least_pixels) return;
        sides shown;
        if (!is_filled(d.getStateSet(), shown)) return;
        for (auto *s = getCurrentStateGraph(); s != nullptr; s = s->_parent) {
            if (!is_filled(s->getStateSet(), shown)) return;
        }
        const osg::ref_ptr<const mesh> m = store().mesh_of(*g);
        if (m->numbers.empty()) return;
        frame_->draw(to_clip().numbers,
                     maskcull::mesh_view(m->points.data(), sizeof(osg::Vec3), m->points.size(), m->numbers.data(),
                                         m->numbers.size()),
                     shown.is_one ? MASKCULL_DROPS_CLOCKWISE : MASKCULL_KEEPS_BOTH);
    }

    // Whether the front alone is shown, by the innermost state that says so, or an outer one that overrides it.
    struct sides {
        bool is_known = false, is_one = false;
    };

    // Whether what is rendered with this state fills its triangles where they are.
    static bool is_filled(const osg::StateSet *s, sides &shown) {
        using state = osg::StateAttribute;
        if (s == nullptr) return true;
        if (s->getRenderingHint() == osg::StateSet::TRANSPARENT_BIN) return false;
        constexpr unsigned sample_alpha_to_coverage = 0x809E;
        for (const unsigned mode : {unsigned{GL_BLEND}, unsigned{GL_ALPHA_TEST}, unsigned{GL_POLYGON_STIPPLE},
                                    unsigned{GL_STENCIL_TEST}, unsigned{GL_SCISSOR_TEST}, unsigned{GL_COLOR_LOGIC_OP},
                                    sample_alpha_to_coverage}) {
            if (s->getMode(mode) & state::ON) return false;
        }
        for (unsigned k = 0; k < 6; k++) {
            if (s->getMode(GL_CLIP_PLANE0 + k) & state::ON) return false;
        }
        for (const auto type : {state::PROGRAM, state::VERTEXPROGRAM, state::FRAGMENTPROGRAM, state::DEPTH,
                                state::POLYGONMODE, state::FRONTFACE}) {
            if (s->getAttribute(type) != nullptr) return false;
        }
        const auto *face = static_cast<const osg::CullFace *>(s->getAttribute(state::CULLFACE));
        if (face != nullptr && face->getMode() != osg::CullFace::BACK) return false;
        // a view's own state has one that masks nothing
        const auto *mask = static_cast<const osg::ColorMask *>(s->getAttribute(state::COLORMASK));
        if (mask != nullptr && !(mask->getRedMask() && mask->getGreenMask() && mask->getBlueMask())) return false;
        const auto mode = s->getMode(GL_CULL_FACE);
        if (mode & state::INHERIT) return true;
        if (!shown.is_known || (mode & state::OVERRIDE)) shown.is_one |= (mode & state::ON) != 0;
        shown.is_known = true;
        return true;
    }

    turn turn_ = idle;
    bool is_cleared_ = false, is_flat_ = false;
    std::optional<Frame> frame_;
    unsigned width_ = 0, height_ = 0;
};

using cull_visitor = basic_cull_visitor<maskcull::frame>;

// Blended leaves of one depth are sorted by std::sort, which leaves their order open: it changes with what is left out.
struct stable_order : osgUtil::RenderBin::SortCallback {
    void sortImplementation(osgUtil::RenderBin *bin) override {
        bin->copyLeavesFromStateGraphListToRenderLeafList();
        auto &leaves = bin->getRenderLeafList();
        std::sort(leaves.begin(), leaves.end(), [](const osgUtil::RenderLeaf *p, const osgUtil::RenderLeaf *q) {
            return p->_depth != q->_depth ? p->_depth > q->_depth : p->_traversalOrderNumber < q->_traversalOrderNumber;
        });
    }
};

template <class Frame = maskcull::frame> void install() {
    osgUtil::CullVisitor::prototype() = new basic_cull_visitor<Frame>;
    osgUtil::RenderBin::getRenderBinPrototype("DepthSortedBin")->setSortCallback(new stable_order);
}

} // namespace maskcull_osg

#endif
