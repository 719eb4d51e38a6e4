// Renders a list of objects by OGRE from many cameras, with culling and without, and compares all pixels:
//
//     engines-ogre LIST CAMERAS WIDTH HEIGHT RENDERSYSTEM
//
// As engines-osg; RENDERSYSTEM is the path of RenderSystem_GL without its ending. It prints how many frames and pixels
// differ, and how many batches are rendered; its status is 1 where a frame differs.
#include "ogre/maskcull_ogre.hpp"

#include <cstdio>
#include <cstdlib>
#include <fstream>
#include <sstream>

namespace {

// A material for each kind of object: shown from both sides, blended, cut out by its texture.
std::string material_of(int flags) {
    const std::string name = "objects " + std::to_string(flags);
    if (Ogre::MaterialManager::getSingleton().resourceExists(name, "General")) return name;
    const auto material = Ogre::MaterialManager::getSingleton().create(name, "General");
    Ogre::Pass *pass = material->getTechnique(0)->getPass(0);
    pass->setLightingEnabled(false);
    pass->setVertexColourTracking(Ogre::TVC_DIFFUSE);
    if (flags & 1) pass->setCullingMode(Ogre::CULL_NONE);
    if (flags & 2) pass->setSceneBlending(Ogre::SBT_TRANSPARENT_ALPHA), pass->setDepthWriteEnabled(false);
    if (flags & 4) pass->setAlphaRejectSettings(Ogre::CMPF_GREATER, 8);
    return name;
}

void finish(Ogre::SceneManager *scene, Ogre::ManualObject *made, unsigned number) {
    if (made == nullptr) return;
    made->end();
    const std::string name = "object " + std::to_string(number);
    made->convertToMesh(name);
    scene->destroyManualObject(made);
    scene->getRootSceneNode()->createChildSceneNode()->attachObject(scene->createEntity(name, name));
}

void read_list(const char *path, Ogre::SceneManager *scene) {
    std::ifstream in(path);
    Ogre::ManualObject *made = nullptr;
    unsigned number = 0;
    Ogre::ColourValue colour;
    for (std::string line; std::getline(in, line);) {
        std::istringstream rest(line.substr(1));
        if (line[0] == 'o') {
            finish(scene, made, number);
            int flags = 0;
            rest >> flags;
            number++;
            const auto part = [](unsigned of) { return static_cast<float>(of & 255) / 255.0f; };
            colour = Ogre::ColourValue(part(number), part(number >> 8), part(number * 97 + 60), flags & 2 ? 0.5f : 1);
            made = scene->createManualObject();
            made->begin(material_of(flags & 7), Ogre::RenderOperation::OT_TRIANGLE_LIST);
        } else if (line[0] == 'v') {
            float x = 0, y = 0, z = 0;
            rest >> x >> y >> z;
            made->position(x, y, z), made->colour(colour);
        } else {
            unsigned a = 0, b = 0, c = 0;
            rest >> a >> b >> c;
            made->triangle(a, b, c);
        }
    }
    finish(scene, made, number);
}

std::vector<std::uint32_t> picture_of(Ogre::Root &root, Ogre::RenderWindow *window) {
    root._fireFrameStarted();
    window->update(false);
    std::vector<std::uint32_t> pixels(static_cast<std::size_t>(window->getWidth()) * window->getHeight());
    const Ogre::PixelBox box(window->getWidth(), window->getHeight(), 1, Ogre::PF_BYTE_RGBA, pixels.data());
    window->copyContentsToMemory(box, box, Ogre::RenderTarget::FB_BACK);
    root._fireFrameEnded();
    window->swapBuffers();
    return pixels;
}

} // namespace

int main(int count, char **argv) {
    if (count != 6) return 2;
    const auto width = static_cast<unsigned>(std::atoi(argv[3])), height = static_cast<unsigned>(std::atoi(argv[4]));
    Ogre::Root root("", "", "");
    root.loadPlugin(argv[5]);
    root.setRenderSystem(root.getAvailableRenderers()[0]);
    root.initialise(false);
    const Ogre::NameValuePairList how{{"FSAA", "0"}, {"vsync", "false"}};
    Ogre::RenderWindow *window = root.createRenderWindow("engines", width, height, false, &how);
    window->setAutoUpdated(false);
    Ogre::SceneManager *scene = root.createSceneManager();
    Ogre::ResourceGroupManager::getSingleton().initialiseAllResourceGroups();
    read_list(argv[1], scene);
    Ogre::Camera *camera = scene->createCamera("camera");
    camera->setNearClipDistance(0.1f), camera->setFarClipDistance(5000);
    camera->setFOVy(Ogre::Degree(60)), camera->setAspectRatio(static_cast<float>(width) / static_cast<float>(height));
    Ogre::SceneNode *place = scene->getRootSceneNode()->createChildSceneNode();
    place->attachObject(camera);
    window->addViewport(camera)->setBackgroundColour(Ogre::ColourValue(0, 0, 0, 0));
    maskcull_ogre::culler culler(scene);
    std::ifstream in(argv[2]);
    Ogre::Vector3 eye, at, up;
    unsigned long frames = 0, differ = 0, pixels = 0, batches[2] = {0, 0};
    for (; in >> eye.x >> eye.y >> eye.z >> at.x >> at.y >> at.z >> up.x >> up.y >> up.z; frames++) {
        const Ogre::Vector3 back = (eye - at).normalisedCopy(), right = up.crossProduct(back).normalisedCopy();
        place->setPosition(eye);
        place->setOrientation(Ogre::Quaternion(right, back.crossProduct(right), back));
        std::vector<std::uint32_t> pictures[2];
        for (int on = 0; on < 2; on++) {
            culler.is_on = on == 1;
            pictures[on] = picture_of(root, window);
            batches[on] += window->getStatistics().batchCount;
        }
        unsigned long here = 0;
        for (std::size_t k = 0; k < pictures[0].size(); k++) {
            here += ((pictures[0][k] ^ pictures[1][k]) & 0xffffff) != 0 ? 1 : 0;
        }
        pixels += here, differ += here != 0 ? 1 : 0;
    }
    std::printf("frames %lu differ %lu pixels %lu drawn %lu -> %lu\n", frames, differ, pixels, batches[0], batches[1]);
    return differ != 0 ? 1 : 0;
}
