// A frame drawn by a pool of threads that is kept from frame to frame. First they set the triangles up, slice by slice,
// and sort each slice's pieces by the bands of rows of tiles that they reach. Then they draw the bands, each from all
// slices in order. Slices and bands are dealt in turn to whoever is free, the bands with the most pieces first, so that
// none of these is left alone at the end.
//
//     c++ -std=c++17 -O2 -Iinclude examples/c/threads.cpp crates/maskcull_c/out/libmaskcull_c.a -pthread -o threads
//     ./threads [THREADS]    with a number of threads: how long a frame takes by one thread, and by so many
//
// The triangles are those of examples/c/measure.c and of `demo`'s first frame: random ones between near and far. A band
// in the middle of the screen is more work than one at its edge, so there are several bands for each thread. Bands are
// rows and not columns, since the tiles of a row lie one after another in memory, and no two calls that write may be
// passed the same tiles.
#include "maskcull.h"

#include <algorithm>
#include <array>
#include <atomic>
#include <chrono>
#include <condition_variable>
#include <cstdio>
#include <cstring>
#include <functional>
#include <mutex>
#include <thread>
#include <vector>

namespace {

// Threads that are kept. `run` calls some work with each number below a count, on these threads and the caller's.
class pool {
public:
    using job = std::function<void(unsigned)>;

    explicit pool(unsigned helpers) {
        for (unsigned k = 0; k < helpers; k++) threads_.emplace_back([this] { help(); });
    }

    ~pool() {
        begin(nullptr, 0);
        for (std::thread &thread : threads_) thread.join();
    }

    void run(unsigned count, const job &work) {
        begin(&work, count);
        take_turns();
        std::unique_lock<std::mutex> lock(mutex_);
        ended_.wait(lock, [this] { return working_ == 0; });
    }

private:
    void begin(const job *work, unsigned count) {
        std::lock_guard<std::mutex> lock(mutex_);
        work_ = work, count_ = count, next_ = 0, working_ = threads_.size(), round_++;
        begun_.notify_all();
    }

    void take_turns() {
        for (unsigned k = next_++; k < count_; k = next_++) (*work_)(k);
    }

    void help() {
        std::unique_lock<std::mutex> lock(mutex_);
        for (unsigned long seen = 0;; seen++) {
            begun_.wait(lock, [&] { return round_ != seen; });
            if (work_ == nullptr) return;
            lock.unlock();
            take_turns();
            lock.lock();
            if (--working_ == 0) ended_.notify_one();
        }
    }

    std::mutex mutex_;
    std::condition_variable begun_, ended_;
    std::vector<std::thread> threads_;
    const job *work_ = nullptr; // none when all is over
    std::atomic<unsigned> next_{0};
    unsigned count_ = 0;
    std::size_t working_ = 0;
    unsigned long round_ = 0;
};

constexpr maskcull_setup setup = {1280, 720, 16, MASKCULL_KEEPS_BOTH};
constexpr std::uint32_t columns = (setup.width + 31) / 32, rows = (setup.height + 7) / 8;
constexpr unsigned triangle_count = 20000, slice_triangles = 1250, band_rows = 5;
constexpr unsigned slice_count = (triangle_count + slice_triangles - 1) / slice_triangles;
constexpr unsigned bands = (rows + band_rows - 1) / band_rows;

std::uint64_t state = 1;

std::int32_t below(std::int32_t end) {
    state = state * 6364136223846793005u + 1442695040888963407u;
    return static_cast<std::int32_t>((state >> 33) % static_cast<std::uint64_t>(end));
}

// The pieces of some triangles, and those that reach each band. It is memory that is kept from frame to frame.
struct slice {
    std::vector<maskcull_piece> pieces = std::vector<maskcull_piece>(2 * slice_triangles), by_band[bands];
};

struct frame {
    std::vector<maskcull_vertex> vertices;
    std::vector<maskcull_triangle> triangles;
    std::vector<slice> slices = std::vector<slice>(slice_count);
    std::vector<maskcull_tile> tiles = std::vector<maskcull_tile>(maskcull_tile_count(setup.width, setup.height));
};

void make_triangles(frame &f) {
    for (std::uint32_t k = 0; k < triangle_count; k++) {
        const std::int32_t x = below(16001) - 8000, y = below(4001) - 2000, z = 200 + below(16000);
        for (int corner = 0; corner < 3; corner++) {
            const std::int64_t across = 36864 * static_cast<std::int64_t>(x + below(801) - 400);
            const std::int32_t up = y + below(801) - 400, far = z + below(201) - 100;
            // rounded down, below 0 too
            f.vertices.push_back({static_cast<std::int32_t>((across - (across < 0 ? 65535 : 0)) / 65536), up, far});
        }
        f.triangles.push_back({3 * k, 3 * k + 1, 3 * k + 2});
    }
}

bool draw_by_one(frame &f) {
    maskcull_clear(f.tiles.data(), f.tiles.size());
    return maskcull_draw(&setup, f.tiles.data(), f.tiles.size(), f.vertices.data(), f.vertices.size(),
                         f.triangles.data(), f.triangles.size()) == MASKCULL_DONE;
}

void sort_by_band(slice &s, std::size_t count) {
    for (auto &pieces : s.by_band) pieces.clear();
    for (std::size_t k = 0; k < count; k++) {
        std::uint32_t row, end_row;
        maskcull_piece_rows(&setup, &s.pieces[k], &row, &end_row);
        for (std::uint32_t band = row / band_rows; band * band_rows < end_row; band++) {
            s.by_band[band].push_back(s.pieces[k]);
        }
    }
}

bool set_up_slice(frame &f, unsigned number) {
    const unsigned first = number * slice_triangles, triangles = std::min(slice_triangles, triangle_count - first);
    slice &s = f.slices[number];
    std::size_t count = 0;
    const bool is_set_up = maskcull_set_up(&setup, f.vertices.data(), f.vertices.size(), f.triangles.data() + first,
                                           triangles, s.pieces.data(), s.pieces.size(), &count) == MASKCULL_DONE;
    sort_by_band(s, count);
    return is_set_up;
}

// Empties a band, and draws all slices onto it, in order.
bool draw_band(frame &f, unsigned band) {
    const std::uint32_t first_row = band * band_rows, row_count = std::min(band_rows, rows - first_row);
    maskcull_tile *tiles = f.tiles.data() + columns * first_row;
    const std::size_t count = columns * row_count;
    maskcull_clear(tiles, count);
    bool is_drawn = true;
    for (const slice &s : f.slices) {
        const std::vector<maskcull_piece> &pieces = s.by_band[band];
        is_drawn &= maskcull_checked_draw_pieces(&setup, tiles, count, first_row, pieces.data(), pieces.size())
                    == MASKCULL_DONE;
    }
    return is_drawn;
}

// The bands, those with the most pieces first.
std::array<unsigned, bands> bands_by_size(const frame &f) {
    std::array<std::size_t, bands> sizes = {};
    std::array<unsigned, bands> order;
    for (unsigned k = 0; k < bands; k++) {
        order[k] = k;
        for (const slice &s : f.slices) sizes[k] += s.by_band[k].size();
    }
    std::sort(order.begin(), order.end(), [&](unsigned a, unsigned b) { return sizes[a] > sizes[b]; });
    return order;
}

bool draw_by_pool(frame &f, pool &threads) {
    std::atomic<bool> is_drawn{true};
    threads.run(slice_count, [&](unsigned k) {
        if (!set_up_slice(f, k)) is_drawn = false;
    });
    const std::array<unsigned, bands> order = bands_by_size(f);
    threads.run(bands, [&](unsigned k) {
        if (!draw_band(f, order[k])) is_drawn = false;
    });
    return is_drawn;
}

// The least of some rounds.
template <class Work> double milliseconds(const Work &work) {
    double least = 1e300;
    for (int round = 0; round < 30; round++) {
        const auto begin = std::chrono::steady_clock::now();
        work();
        const std::chrono::duration<double, std::milli> taken = std::chrono::steady_clock::now() - begin;
        least = std::min(least, taken.count());
    }
    return least;
}

} // namespace

int main(int count, char **words) {
    const int thread_count = count > 1 ? std::atoi(words[1]) : 4;
    if (thread_count < 1 || thread_count > 64) return 2;
    frame by_one, by_pool;
    make_triangles(by_one);
    by_pool.vertices = by_one.vertices, by_pool.triangles = by_one.triangles;
    pool threads(static_cast<unsigned>(thread_count - 1));
    bool is_drawn = draw_by_one(by_one);
    for (int k = 0; k < 3; k++) is_drawn = draw_by_pool(by_pool, threads) && is_drawn;
    const std::size_t bytes = by_one.tiles.size() * sizeof(maskcull_tile);
    const bool are_same = is_drawn && std::memcmp(by_one.tiles.data(), by_pool.tiles.data(), bytes) == 0;
    std::printf("tiles of the pool and of one thread: %s\n", are_same ? "the same" : "not the same");
    if (count > 1) {
        double one = 1e300, all = 1e300;
        for (int turn = 0; turn < 4; turn++) { // in turn, since other programs come and go
            one = std::min(one, milliseconds([&] { draw_by_one(by_one); }));
            all = std::min(all, milliseconds([&] { draw_by_pool(by_pool, threads); }));
        }
        std::printf("1 thread %.3f ms, %d threads %.3f ms: %.2f of it\n", one, thread_count, all, all / one);
    }
    return are_same ? 0 : 1;
}
