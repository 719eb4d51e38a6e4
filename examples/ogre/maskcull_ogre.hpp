// SPDX-License-Identifier: MIT OR Apache-2.0
//
// maskcull in OGRE 1.12: entities that others hide aren't queued for rendering.
//
//     maskcull_ogre::culler culler(scene_manager);    // behind the creation of the entities; lives as long as they do
//     culler.add(entity);                             // one that is created later
//
// OGRE tells a SceneManager::Listener before it looks for visible objects: then the occluders are drawn. It asks a
// MovableObject::Listener of each object that its own frustum test leaves: then the object's box is tested. An object
// has one listener: one that has another isn't tested. docs/ENGINES.md tells what a scene has to heed.
#ifndef MASKCULL_OGRE_HPP
#define MASKCULL_OGRE_HPP

#include "maskcull.hpp"

#include <Ogre.h>

#include <map>

namespace maskcull_ogre {

/// `Frame` has the calls of maskcull::frame.
template <class Frame> class basic_culler : public Ogre::SceneManager::Listener, public Ogre::MovableObject::Listener {
public:
    bool is_on = true;

    explicit basic_culler(Ogre::SceneManager *scene) : scene_(scene) {
        scene->addListener(this);
        for (const auto &named : scene->getMovableObjects("Entity")) add(*named.second);
    }

    ~basic_culler() override {
        scene_->removeListener(this);
        for (const auto &named : scene_->getMovableObjects("Entity")) {
            if (named.second->getListener() == this) named.second->setListener(nullptr);
        }
    }

    basic_culler(const basic_culler &) = delete;
    basic_culler &operator=(const basic_culler &) = delete;

    void add(Ogre::MovableObject &object) {
        if (object.getListener() == nullptr) object.setListener(this);
    }

    /// Meshes are read once. After one was changed, or to have memory back, they are read anew.
    void forget() { meshes_.clear(); }

    void preFindVisibleObjects(Ogre::SceneManager *scene, Ogre::SceneManager::IlluminationRenderStage stage,
                               Ogre::Viewport *port) override {
        camera_ = nullptr;
        const Ogre::Camera *camera = port->getCamera();
        // no shadow's view, and none whose triangles are turned around, clipped or drawn as lines
        if (!is_on || stage != Ogre::SceneManager::IRS_NONE || camera->isReflected()
            || camera->isCustomProjectionMatrixEnabled() || camera->isCustomNearClipPlaneEnabled()
            || camera->getPolygonMode() != Ogre::PM_SOLID || !begin(*port, *camera)) {
            return;
        }
        to_clip_ = camera->getProjectionMatrix() * camera->getViewMatrix();
        for (const auto &named : scene->getMovableObjects("Entity")) {
            draw(*static_cast<Ogre::Entity *>(named.second), *camera, scene->_getCombinedVisibilityMask());
        }
        camera_ = camera;
    }

    bool objectRendering(const Ogre::MovableObject *object, const Ogre::Camera *camera) override {
        const Ogre::AxisAlignedBox &box = object->getBoundingBox();
        if (camera != camera_ || !box.isFinite()) return true;
        const Ogre::Matrix4 all = to_clip_ * object->_getParentNodeFullTransform();
        return frame_->test_aabb(all[0], box.getMinimum().ptr(), box.getMaximum().ptr()) != maskcull::verdict::occluded;
    }

private:
    // While the mesh is held here no other has the address of its parts.
    struct mesh {
        Ogre::MeshPtr whole;
        std::vector<float> points;
        std::vector<std::uint32_t> numbers;
    };

    // An empty frame of the viewport's size, for the camera's near distance.
    bool begin(const Ogre::Viewport &port, const Ogre::Camera &camera) {
        const auto width = static_cast<unsigned>(port.getActualWidth());
        const auto height = static_cast<unsigned>(port.getActualHeight());
        const bool is_flat = camera.getProjectionType() == Ogre::PT_ORTHOGRAPHIC;
        if (!frame_ || width != width_ || height != height_ || is_flat != is_flat_) {
            maskcull::options how;
            how.matrices = maskcull::matrix_layout::rows;
            if (is_flat) how.orthographic = maskcull::depth_range{-1, 1};
            frame_ = Frame::make(width, height, 1.0f, how);
            width_ = width, height_ = height, is_flat_ = is_flat;
        }
        return frame_ && frame_->clear(camera.getNearClipDistance());
    }

    // What is left out here isn't rendered, or doesn't fill its triangles where they are.
    void draw(Ogre::Entity &e, const Ogre::Camera &camera, Ogre::uint32 mask) {
        if (!e.isInScene() || !e.isVisible() || (e.getVisibilityFlags() & mask) == 0 || e.hasSkeleton()
            || e.hasVertexAnimation() || e.getRenderingDistance() > 0 || e.getRenderingMinPixelSize() > 0
            || e.getMesh()->getNumLodLevels() > 1 || !camera.isVisible(e.getWorldBoundingBox(true))) {
            return;
        }
        const Ogre::Matrix4 all = to_clip_ * e._getParentNodeFullTransform();
        for (std::size_t k = 0; k < e.getNumSubEntities(); k++) {
            const Ogre::SubEntity &part = *e.getSubEntity(k);
            const Ogre::Technique *technique = part.isVisible() ? part.getTechnique() : nullptr;
            if (technique == nullptr || technique->getNumPasses() == 0) continue;
            const Ogre::Pass &pass = *technique->getPass(0);
            if (!is_filled(pass)) continue;
            const mesh &m = mesh_of(e.getMesh(), *e.getMesh()->getSubMesh(k));
            if (m.numbers.empty()) continue;
            frame_->draw(all[0], maskcull::mesh_view(m.points.data(), 12, m.points.size() / 3, m.numbers.data(),
                                                     m.numbers.size()),
                         winding_of(pass));
        }
    }

    static bool is_filled(const Ogre::Pass &pass) {
        return !pass.isTransparent() && pass.getDepthCheckEnabled() && pass.getDepthWriteEnabled()
               && pass.getColourWriteEnabled() && !pass.hasVertexProgram() && !pass.hasFragmentProgram()
               && !pass.hasGeometryProgram() && pass.getAlphaRejectFunction() == Ogre::CMPF_ALWAYS_PASS
               && pass.getPolygonMode() == Ogre::PM_SOLID && pass.getDepthBiasConstant() == 0
               && pass.getDepthBiasSlopeScale() == 0;
    }

    static maskcull_winding winding_of(const Ogre::Pass &pass) {
        return pass.getCullingMode() == Ogre::CULL_NONE        ? MASKCULL_KEEPS_BOTH
               : pass.getCullingMode() == Ogre::CULL_CLOCKWISE ? MASKCULL_DROPS_CLOCKWISE
                                                               : MASKCULL_DROPS_COUNTERCLOCKWISE;
    }

    const mesh &mesh_of(const Ogre::MeshPtr &whole, const Ogre::SubMesh &part) {
        const auto found = meshes_.find(&part);
        if (found != meshes_.end()) return found->second;
        mesh &m = meshes_[&part];
        m.whole = whole;
        try {
            read(m, part);
        } catch (const Ogre::Exception &) { // a buffer that can't be read
            m.numbers.clear();
        }
        return m;
    }

    static void read(mesh &m, const Ogre::SubMesh &part) {
        const Ogre::VertexData *vertices = part.useSharedVertices ? part.parent->sharedVertexData : part.vertexData;
        const Ogre::IndexData *list = part.indexData;
        const bool is_list = part.operationType == Ogre::RenderOperation::OT_TRIANGLE_LIST;
        if (vertices == nullptr || list->indexCount == 0 || !is_list) return;
        const Ogre::VertexElement *place = vertices->vertexDeclaration->findElementBySemantic(Ogre::VES_POSITION);
        if (place == nullptr || place->getType() != Ogre::VET_FLOAT3) return;
        const auto buffer = vertices->vertexBufferBinding->getBuffer(place->getSource());
        // what is written to again isn't read once
        if ((buffer->getUsage() | list->indexBuffer->getUsage()) & Ogre::HardwareBuffer::HBU_DYNAMIC) return;
        const auto *bytes = static_cast<const unsigned char *>(buffer->lock(Ogre::HardwareBuffer::HBL_READ_ONLY));
        m.points.resize(3 * vertices->vertexCount);
        for (std::size_t k = 0; k < vertices->vertexCount; k++) {
            const std::size_t at = (vertices->vertexStart + k) * buffer->getVertexSize() + place->getOffset();
            std::memcpy(&m.points[3 * k], bytes + at, 12);
        }
        buffer->unlock();
        const bool is_short = list->indexBuffer->getType() == Ogre::HardwareIndexBuffer::IT_16BIT;
        const void *numbers = list->indexBuffer->lock(Ogre::HardwareBuffer::HBL_READ_ONLY);
        for (std::size_t k = list->indexStart; k < list->indexStart + list->indexCount; k++) {
            m.numbers.push_back(is_short ? static_cast<const std::uint16_t *>(numbers)[k]
                                         : static_cast<const std::uint32_t *>(numbers)[k]);
        }
        list->indexBuffer->unlock();
    }

    Ogre::SceneManager *scene_;
    const Ogre::Camera *camera_ = nullptr; // whose frame it is
    std::optional<Frame> frame_;
    std::map<const Ogre::SubMesh *, mesh> meshes_;
    Ogre::Matrix4 to_clip_;
    unsigned width_ = 0, height_ = 0;
    bool is_flat_ = false;
};

using culler = basic_culler<maskcull::frame>;

} // namespace maskcull_ogre

#endif
