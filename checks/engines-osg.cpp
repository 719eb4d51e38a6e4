// Renders a list of objects by OpenSceneGraph from many cameras, with culling and without, and compares all pixels:
//
//     engines-osg LIST CAMERAS WIDTH HEIGHT [--auto] [--unstable]
//
// checks/engines-model makes the list; a line of the cameras has the eye, what it looks at, and what is up. An object's
// colour is its number. With --auto OpenSceneGraph computes near and far plane, with --unstable it sorts blended
// objects as without maskcull. It prints how many frames and pixels differ, and how many drawables are rendered; its
// status is 1 where a frame differs.
#include "osg/maskcull_osg.hpp"

#include <osgUtil/Statistics>
#include <osgViewer/Renderer>
#include <osgViewer/Viewer>

#include <cstdlib>
#include <fstream>
#include <iostream>
#include <set>
#include <sstream>

namespace {

using words = std::set<std::string>;

osg::ref_ptr<osg::Geometry> geometry_of(int flags, unsigned number) {
    osg::ref_ptr<osg::Geometry> made = new osg::Geometry;
    made->setUseDisplayList(false), made->setUseVertexBufferObjects(true);
    made->setVertexArray(new osg::Vec3Array);
    made->addPrimitiveSet(new osg::DrawElementsUInt(GL_TRIANGLES));
    auto *colour = new osg::Vec4ubArray;
    colour->push_back(osg::Vec4ub(number & 255, number >> 8 & 255, (number * 97 + 60) & 255, flags & 2 ? 128 : 255));
    made->setColorArray(colour, osg::Array::BIND_OVERALL);
    osg::StateSet *state = made->getOrCreateStateSet();
    if (flags & 1) state->setMode(GL_CULL_FACE, osg::StateAttribute::OFF);
    if (flags & 2) {
        state->setMode(GL_BLEND, osg::StateAttribute::ON);
        state->setRenderingHint(osg::StateSet::TRANSPARENT_BIN);
    }
    if (flags & 4) state->setMode(GL_ALPHA_TEST, osg::StateAttribute::ON);
    return made;
}

osg::ref_ptr<osg::Group> read_list(const char *path) {
    osg::ref_ptr<osg::Group> root = new osg::Group;
    std::ifstream in(path);
    osg::ref_ptr<osg::Geometry> g;
    for (std::string line; std::getline(in, line);) {
        std::istringstream rest(line.substr(1));
        if (line[0] == 'o') {
            int flags = 0;
            rest >> flags;
            root->addChild(g = geometry_of(flags, root->getNumChildren() + 1));
        } else if (line[0] == 'v') {
            float x = 0, y = 0, z = 0;
            rest >> x >> y >> z;
            static_cast<osg::Vec3Array *>(g->getVertexArray())->push_back(osg::Vec3(x, y, z));
        } else {
            unsigned a = 0, b = 0, c = 0;
            rest >> a >> b >> c;
            auto *numbers = static_cast<osg::DrawElementsUInt *>(g->getPrimitiveSet(0));
            numbers->push_back(a), numbers->push_back(b), numbers->push_back(c);
        }
    }
    osg::StateSet *state = root->getOrCreateStateSet();
    state->setAttributeAndModes(new osg::CullFace(osg::CullFace::BACK));
    state->setMode(GL_LIGHTING, osg::StateAttribute::OFF);
    state->setMode(GL_DITHER, osg::StateAttribute::OFF);
    return root;
}

struct picture : osg::Camera::DrawCallback {
    int width = 0, height = 0;
    mutable std::vector<std::uint32_t> pixels;

    void operator()(osg::RenderInfo &) const override {
        pixels.resize(static_cast<std::size_t>(width * height));
        glPixelStorei(GL_PACK_ALIGNMENT, 1);
        glReadPixels(0, 0, width, height, GL_RGBA, GL_UNSIGNED_BYTE, pixels.data());
    }
};

bool open_window(osgViewer::Viewer &viewer, picture *taken, const words &said) {
    osg::ref_ptr<osg::GraphicsContext::Traits> traits = new osg::GraphicsContext::Traits;
    traits->readDISPLAY();
    traits->width = taken->width, traits->height = taken->height, traits->pbuffer = true, traits->doubleBuffer = true;
    traits->red = traits->green = traits->blue = traits->alpha = 8, traits->depth = 24;
    osg::ref_ptr<osg::GraphicsContext> context = osg::GraphicsContext::createGraphicsContext(traits);
    if (!context) return false;
    viewer.setThreadingModel(osgViewer::ViewerBase::SingleThreaded);
    osg::Camera *camera = viewer.getCamera();
    camera->setGraphicsContext(context);
    camera->setViewport(new osg::Viewport(0, 0, taken->width, taken->height));
    camera->setDrawBuffer(GL_BACK), camera->setReadBuffer(GL_BACK);
    camera->setClearColor(osg::Vec4(0, 0, 0, 0));
    camera->setProjectionMatrixAsPerspective(60, double(taken->width) / taken->height, 0.1, 5000);
    if (!said.count("--auto")) camera->setComputeNearFarMode(osg::CullSettings::DO_NOT_COMPUTE_NEAR_FAR);
    camera->setFinalDrawCallback(taken);
    viewer.setCameraManipulator(nullptr);
    viewer.realize();
    return true;
}

} // namespace

int main(int count, char **argv) {
    if (count < 5) return 2;
    const words said(argv + 5, argv + count);
    maskcull_osg::install();
    auto *blended = osgUtil::RenderBin::getRenderBinPrototype("DepthSortedBin");
    if (said.count("--unstable")) blended->setSortCallback(nullptr);
    // so that of two surfaces in one place the same one is seen
    osgUtil::RenderBin::setDefaultRenderBinSortMode(osgUtil::RenderBin::TRAVERSAL_ORDER);
    osg::ref_ptr<picture> taken = new picture;
    taken->width = std::atoi(argv[3]), taken->height = std::atoi(argv[4]);
    osgViewer::Viewer viewer;
    viewer.setSceneData(read_list(argv[1]));
    if (!open_window(viewer, taken, said)) return 2;
    auto *renderer = dynamic_cast<osgViewer::Renderer *>(viewer.getCamera()->getRenderer());
    std::ifstream in(argv[2]);
    osg::Vec3d eye, at, up;
    unsigned long frames = 0, differ = 0, pixels = 0, drawn[2] = {0, 0};
    for (; in >> eye[0] >> eye[1] >> eye[2] >> at[0] >> at[1] >> at[2] >> up[0] >> up[1] >> up[2]; frames++) {
        viewer.getCamera()->setViewMatrixAsLookAt(eye, at, up);
        std::vector<std::uint32_t> pictures[2];
        for (int on = 0; on < 2; on++) {
            maskcull_osg::chosen().is_on = on == 1;
            viewer.frame();
            pictures[on] = taken->pixels;
            osgUtil::Statistics statistics;
            renderer->getSceneView(0)->getStats(statistics);
            drawn[on] += static_cast<unsigned long>(statistics.numDrawables);
        }
        unsigned long here = 0;
        for (std::size_t k = 0; k < pictures[0].size(); k++) here += pictures[0][k] != pictures[1][k] ? 1 : 0;
        pixels += here, differ += here != 0 ? 1 : 0;
    }
    std::cout << "frames " << frames << " differ " << differ << " pixels " << pixels << " drawn " << drawn[0] << " -> "
              << drawn[1] << '\n';
    return differ != 0 ? 1 : 0;
}
