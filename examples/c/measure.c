/* How long calls take, on a screen of 1280 by 720 pixels: the least of some rounds.
 *
 *     cc -std=c11 -O2 -Iinclude examples/c/measure.c crates/maskcull_c/out/libmaskcull_c.a -pthread -o measure
 *     ./measure
 *     ./measure wide
 *
 * The triangles are those of bench/frames.py: random ones between near and far, the same for the same seed. A frame is
 * a clearing and a draw of all; with four threads each draws all triangles onto a quarter of the rows of tiles, and
 * starting them is part of it. The second line measures the same in the wide grade. Measure on a quiet machine. */
#define _POSIX_C_SOURCE 200809L
#include "maskcull.h"

#include <pthread.h>
#include <stdio.h>
#include <string.h>
#include <time.h>

enum { WIDTH = 1280, HEIGHT = 720, NEAR = 16, TRIANGLES = 20000, FEW = 1000, MOST_THREADS = 4, ROUNDS = 9 };

static maskcull_setup setup = {WIDTH, HEIGHT, NEAR, MASKCULL_KEEPS_BOTH};

/* All tiles, and what is drawn on them. */
typedef struct scene {
    maskcull_tile *tiles;
    size_t tile_count;
    maskcull_vertex *vertices;
    maskcull_triangle *triangles;
} scene;

/* One thread's rows of tiles. */
typedef struct band {
    const scene *drawn;
    uint32_t first_row;
    uint32_t end_row;
} band;

static uint64_t state = 1;
/* What calls answer is added up here, so that none is left out by the compiler. */
static volatile uint32_t answers;

static int32_t below(int32_t end)
{
    state = state * 6364136223846793005u + 1442695040888963407u;
    return (int32_t)((state >> 33) % (uint64_t)end);
}

static void make_triangle(const scene *s, uint32_t k)
{
    const int32_t x = below(16001) - 8000, y = below(4001) - 2000, z = 200 + below(16000);
    for (uint32_t i = 3 * k; i < 3 * k + 3; i++) {
        const int64_t across = 36864 * (int64_t)(x + below(801) - 400);
        const int32_t up = y + below(801) - 400, far = z + below(201) - 100;
        /* rounded down, below 0 too */
        const maskcull_vertex vertex = {(int32_t)((across - (across < 0 ? 65535 : 0)) / 65536), up, far};
        s->vertices[i] = vertex;
    }
    const maskcull_triangle triangle = {3 * k, 3 * k + 1, 3 * k + 2};
    s->triangles[k] = triangle;
}

static double now(void)
{
    struct timespec time;
    clock_gettime(CLOCK_MONOTONIC, &time);
    return (double)time.tv_sec * 1e9 + (double)time.tv_nsec;
}

static void draw(const scene *s, uint32_t first, uint32_t count)
{
    answers += maskcull_draw(&setup, s->tiles, s->tile_count, s->vertices, 3 * TRIANGLES, s->triangles + first, count);
}

/* The calls that are measured, one each time. */
static void count_tiles(const scene *s)
{
    (void)s;
    answers += maskcull_tile_count(WIDTH, HEIGHT);
}

static void draw_none(const scene *s)
{
    draw(s, 0, 0);
}

static void draw_one(const scene *s)
{
    draw(s, 0, 1);
}

static void test_pixel(const scene *s)
{
    const maskcull_area area = {640, 360, 641, 361};
    answers += maskcull_test(&setup, s->tiles, s->tile_count, &area, 1 << 24);
}

static void test_square(const scene *s)
{
    const maskcull_area area = {612, 333, 676, 397};
    answers += maskcull_test(&setup, s->tiles, s->tile_count, &area, 1 << 24);
}

static void draw_few_at_once(const scene *s)
{
    draw(s, 0, FEW);
}

static void draw_few_by_calls(const scene *s)
{
    for (uint32_t k = 0; k < FEW; k++) {
        draw(s, k, 1);
    }
}

static void draw_frame(const scene *s)
{
    maskcull_clear(s->tiles, s->tile_count);
    draw(s, 0, TRIANGLES);
}

static void *draw_rows(void *rows)
{
    const band *b = rows;
    const size_t columns = (WIDTH + 31) / 32, first = b->first_row * columns;
    const size_t count = (b->end_row - b->first_row) * columns;
    maskcull_clear(b->drawn->tiles + first, count);
    const uint32_t answer = maskcull_draw_band(&setup, b->drawn->tiles + first, count, b->first_row, b->drawn->vertices,
                                               3 * TRIANGLES, b->drawn->triangles, TRIANGLES);
    return answer == MASKCULL_DONE ? rows : NULL;
}

static void draw_frame_by_threads(const scene *s)
{
    const uint32_t rows = (HEIGHT + 7) / 8;
    pthread_t threads[MOST_THREADS];
    band bands[MOST_THREADS];
    for (uint32_t k = 0; k < MOST_THREADS; k++) {
        const band b = {s, rows * k / MOST_THREADS, rows * (k + 1) / MOST_THREADS};
        bands[k] = b;
        if (pthread_create(&threads[k], NULL, draw_rows, &bands[k]) != 0) {
            exit(1);
        }
    }
    for (uint32_t k = 0; k < MOST_THREADS; k++) {
        pthread_join(threads[k], NULL);
    }
}

/* The least time of a call in some rounds of so many calls, in ns. Each round begins with the same tiles. */
static double least(void (*call)(const scene *), const scene *s, uint32_t count, void (*before)(const scene *))
{
    double best = 1e300;
    for (uint32_t round = 0; round < ROUNDS; round++) {
        before(s);
        const double begin = now();
        for (uint32_t k = 0; k < count; k++) {
            call(s);
        }
        const double each = (now() - begin) / count;
        best = each < best ? each : best;
    }
    return best;
}

static void clear(const scene *s)
{
    maskcull_clear(s->tiles, s->tile_count);
}

/* Triangles that fill the screen at twice the near distance: all that is tested then is hidden. */
static void fill(const scene *s)
{
    const maskcull_vertex corners[4] = {{-32, 32, 32}, {32, 32, 32}, {32, -32, 32}, {-32, -32, 32}};
    const maskcull_triangle quad[2] = {{0, 1, 2}, {0, 2, 3}};
    clear(s);
    answers += maskcull_draw(&setup, s->tiles, s->tile_count, corners, 4, quad, 2);
}

static void print_times(const scene *s)
{
    printf("tile_count            %9.1f ns\n", least(count_tiles, s, 1000000, clear));
    printf("draw of no triangle   %9.1f ns\n", least(draw_none, s, 100000, clear));
    printf("draw of one, again    %9.1f ns\n", least(draw_one, s, 10000, clear));
    printf("test of a pixel       %9.1f ns, hidden\n", least(test_pixel, s, 100000, fill));
    printf("test of 64 by 64      %9.1f ns, hidden\n", least(test_square, s, 100000, fill));
    printf("1,000 triangles       %9.3f ms by one call\n", least(draw_few_at_once, s, 1, clear) / 1e6);
    printf("                      %9.3f ms by 1,000 calls\n", least(draw_few_by_calls, s, 1, clear) / 1e6);
    printf("20,000 triangles      %9.3f ms by one thread\n", least(draw_frame, s, 1, clear) / 1e6);
    printf("                      %9.3f ms by four threads\n", least(draw_frame_by_threads, s, 1, clear) / 1e6);
}

int main(int argc, char **argv)
{
    scene s = {NULL, 0, NULL, NULL};
    if (argc > 1 && strcmp(argv[1], "wide") == 0) {
        setup.winding += MASKCULL_WIDE;
    }
    s.tiles = maskcull_open(WIDTH, HEIGHT, &s.tile_count);
    s.vertices = malloc(3 * TRIANGLES * sizeof *s.vertices);
    s.triangles = malloc(TRIANGLES * sizeof *s.triangles);
    const int is_made = s.tiles != NULL && s.vertices != NULL && s.triangles != NULL;
    if (is_made) {
        for (uint32_t k = 0; k < TRIANGLES; k++) {
            make_triangle(&s, k);
        }
        print_times(&s);
    }
    maskcull_close(s.tiles);
    free(s.vertices);
    free(s.triangles);
    return is_made ? 0 : 1;
}
