// Runs a culler over a scene from standard input: its times and counts, or a report in maskcull's form.
#pragma once
#include <algorithm>
#include <chrono>
#include <cstdlib>
#include <cstring>
#include <exception>

#include "scene.hpp"

namespace rivals {

struct Words {
    int rounds = 5;
    bool report = false, exact = false;
};

inline Words words_of(int count, char** words) {
    Words given;
    for (int k = 1; k < count; ++k) {
        if (!std::strcmp(words[k], "--rounds") && k + 1 < count) {
            given.rounds = std::max(1, std::atoi(words[++k]));
        } else if (!std::strcmp(words[k], "--report")) {
            given.report = true;
        } else if (!std::strcmp(words[k], "--exact")) {
            given.report = given.exact = true;
        } else {
            throw std::runtime_error("usage: [--rounds N] [--report] [--exact] < SCENE");
        }
    }
    return given;
}

inline void print_counts(const char* head, std::size_t number, const Frame& frame, bool pieces) {
    std::size_t counts[3] = {};
    for (Verdict verdict : frame.verdicts) ++counts[std::size_t(verdict)];
    std::printf("%s %zu", head, number);
    if (pieces) std::printf(" pieces %zu", frame.pieces);
    std::printf(" visible %zu occluded %zu outside %zu\n", counts[0], counts[1], counts[2]);
}

inline void print_report(const Scene& scene, const std::vector<Frame>& frames) {
    static const char* const names[] = {"visible", "occluded", "outside"};
    std::printf("msoc-report 1 %d %d %zu %zu\n", scene.width, scene.height, frames.size(), scene.objects.size());
    for (std::size_t f = 0; f < frames.size(); ++f) {
        std::printf("frame %zu pieces %zu\n", f, frames[f].pieces);
        for (std::size_t k = 0; k < scene.objects.size(); ++k)
            std::printf("%zu %s\n", k, names[std::size_t(frames[f].verdicts[k])]);
        print_counts("end", f, frames[f], false);
    }
}

// Milliseconds a frame: the least time of each frame over the rounds, and of these the mean.
template <class Culler>
double milliseconds(Culler& culler, const Scene& scene, int rounds, std::vector<Frame>& frames) {
    using clock = std::chrono::steady_clock;
    std::vector<double> least(frames.size(), 1e30);
    for (int round = 0; round < rounds; ++round)
        for (std::size_t f = 0; f < frames.size(); ++f) {
            const auto begin = clock::now();
            culler.cull(scene.cameras[f], frames[f]);
            least[f] = std::min(least[f], std::chrono::duration<double, std::milli>(clock::now() - begin).count());
        }
    double sum = 0;
    for (double time : least) sum += time;
    return frames.empty() ? 0 : sum / double(frames.size());
}

template <class Culler>
int run(const Scene& scene, const Words& words) {
    Culler culler(scene);
    std::vector<Frame> frames(scene.cameras.size());
    for (Frame& frame : frames) frame.verdicts.resize(scene.objects.size());
    const double time = milliseconds(culler, scene, words.report ? 1 : words.rounds, frames);
    if (words.report) {
        print_report(scene, frames);
        return 0;
    }
    std::printf("ms a frame %.4f\n", time);
    for (std::size_t f = 0; f < frames.size(); ++f) print_counts("frame", f, frames[f], true);
    return 0;
}

// What `main` does with what is thrown.
template <class Body>
int guarded(Body body) {
    try {
        return body();
    } catch (const std::exception& fault) {
        std::fprintf(stderr, "%s\n", fault.what());
        return 2;
    }
}

}  // namespace rivals
