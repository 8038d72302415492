/* How long the library and the plain reader take, on the same pictures in one run, and what the library allocates. */
#define _POSIX_C_SOURCE 200809L
#include <stdio.h>
#include <stdlib.h>
#include <string.h>
#include <time.h>

#include "dingaruho.h"
#include "plain.h"

enum {
    BATCHES = 250,         /* of each reader, in turn; the quickest counts, since others lost time to the machine */
    BATCH_NS = 400 * 1000, /* about how long one takes */
};

/* ---- allocations: the linker sends every call of these to the counter (--wrap) */

void *__real_malloc(size_t size);
void *__real_calloc(size_t number, size_t size);
void *__real_realloc(void *old, size_t size);
void *__real_aligned_alloc(size_t alignment, size_t size);
int __real_posix_memalign(void **made, size_t alignment, size_t size);

static unsigned long allocations;

void *__wrap_malloc(size_t size)
{
    allocations++;
    return __real_malloc(size);
}

void *__wrap_calloc(size_t number, size_t size)
{
    allocations++;
    return __real_calloc(number, size);
}

void *__wrap_realloc(void *old, size_t size)
{
    allocations++;
    return __real_realloc(old, size);
}

void *__wrap_aligned_alloc(size_t alignment, size_t size)
{
    allocations++;
    return __real_aligned_alloc(alignment, size);
}

int __wrap_posix_memalign(void **made, size_t alignment, size_t size)
{
    allocations++;
    return __real_posix_memalign(made, alignment, size);
}

/* ---- pictures */

struct picture {
    unsigned count, width;
    size_t size;
    uint8_t *bytes;
    uint16_t points[4]; /* to ask for: the first, a middle one, the last, and one that is not there */
};

static void put_bits(uint8_t *bytes, size_t place, unsigned width, uint64_t number)
{
    for (unsigned k = 0; k < width; k++)
        if (number >> (width - 1 - k) & 1)
            bytes[(place + k) / 8] |= (uint8_t)(0x80 >> (place + k) % 8);
}

static uint64_t next_random(void)
{
    static uint64_t state = 88172645463325252;
    state ^= state << 13;
    state ^= state >> 7;
    state ^= state << 17;
    return state;
}

static uint16_t nth_point(unsigned k)
{
    return (uint16_t)(15 * k + 7);
}

static struct picture make_picture(unsigned count, unsigned width)
{
    struct picture p = {count, width, (54 + (size_t)(16 + width) * count + 7) / 8, NULL, {0}};
    p.bytes = calloc(p.size, 1);
    if (!p.bytes) {
        fprintf(stderr, "bench: no memory\n");
        exit(1);
    }
    put_bits(p.bytes, 0, 32, 1);
    put_bits(p.bytes, 32, 16, count);
    put_bits(p.bytes, 48, 6, width);
    for (unsigned k = 0; k < count; k++) {
        size_t place = 54 + (size_t)(16 + width) * k;
        put_bits(p.bytes, place, 16, nth_point(k));
        /* the middle value is the least that the width holds, so that no less width will do */
        uint64_t value = k == count / 2 ? UINT64_C(1) << (width - 1) : next_random();
        put_bits(p.bytes, place + 16, width, value);
    }
    p.points[0] = nth_point(0);
    p.points[1] = nth_point(count / 2);
    p.points[2] = nth_point(count - 1);
    p.points[3] = (uint16_t)(nth_point(count / 2) + 1);
    return p;
}

/* ---- both readers have to say the same */

static void compare(const uint8_t *bytes, size_t size, const uint16_t *points)
{
    int alike = dingaruho_refused_at(bytes, size) == plain_refused_at(bytes, size);
    for (int k = 0; k < 4; k++)
        alike = alike && dingaruho_ask(bytes, size, points[k]) == plain_ask(bytes, size, points[k]);
    if (!alike) {
        fprintf(stderr, "bench: the library and the plain reader differ\n");
        exit(1);
    }
}

static void compare_all(struct picture *p)
{
    if (plain_refused_at(p->bytes, p->size) != -1) {
        fprintf(stderr, "bench: a picture was made wrongly\n");
        exit(1);
    }
    for (unsigned k = 0; k < p->count; k += 1 + p->count / 64) {
        uint16_t points[4] = {nth_point(k), (uint16_t)(nth_point(k) - 1), 0, 65535};
        compare(p->bytes, p->size, points);
    }
    compare(p->bytes, p->size - 1, p->points);
    for (size_t k = 0; k < 200; k++) {
        size_t place = k < 54 ? k : next_random() % (8 * p->size);
        p->bytes[place / 8] ^= (uint8_t)(0x80 >> place % 8);
        compare(p->bytes, p->size, p->points);
        p->bytes[place / 8] ^= (uint8_t)(0x80 >> place % 8);
    }
    compare(p->bytes, p->size, p->points);
}

/* ---- time */

typedef int64_t ask_function(const uint8_t *, size_t, uint16_t);
typedef int64_t refused_at_function(const uint8_t *, size_t);

static volatile int64_t sink;

static double now_ns(void)
{
    struct timespec t;
    clock_gettime(CLOCK_MONOTONIC, &t);
    return 1e9 * (double)t.tv_sec + (double)t.tv_nsec;
}

/* The time of one question, over the four points in turn. */
static double ask_batch(ask_function *ask, const struct picture *p, unsigned rounds)
{
    int64_t sum = 0;
    double begin = now_ns();
    for (unsigned r = 0; r < rounds; r++)
        for (int k = 0; k < 4; k++)
            sum += ask(p->bytes, p->size, p->points[k]);
    double end = now_ns();
    sink = sum;
    return (end - begin) / (4.0 * rounds);
}

/* The time of one reading of the whole picture. */
static double read_batch(refused_at_function *refused_at, const struct picture *p, unsigned rounds)
{
    int64_t sum = 0;
    double begin = now_ns();
    for (unsigned r = 0; r < rounds; r++)
        for (int k = 0; k < 4; k++)
            sum += refused_at(p->bytes, p->size);
    double end = now_ns();
    sink = sum;
    return (end - begin) / (4.0 * rounds);
}

static double batch(int asks, int ours, const struct picture *p, unsigned rounds)
{
    if (asks)
        return ask_batch(ours ? dingaruho_ask : plain_ask, p, rounds);
    return read_batch(ours ? dingaruho_refused_at : plain_refused_at, p, rounds);
}

static double measure(int asks, const struct picture *p)
{
    /* as many rounds as fill a batch */
    unsigned rounds = 1;
    double once = batch(asks, 0, p, 50);
    if (4 * once < BATCH_NS)
        rounds = (unsigned)(BATCH_NS / (4 * once));

    double ours = 0, plain = 0;
    for (int b = 0; b < BATCHES; b++) {
        double o = batch(asks, 1, p, rounds);
        double q = batch(asks, 0, p, rounds);
        if (b == 0 || o < ours)
            ours = o;
        if (b == 0 || q < plain)
            plain = q;
    }
    char name[64];
    snprintf(name, sizeof name, "%s, %u records, width %u", asks ? "ask" : "full read", p->count, p->width);
    printf("%-36s %10.0f %10.0f %8.2f\n", name, ours, plain, ours / plain);
    fflush(stdout);
    return ours / plain;
}

int main(void)
{
    static const unsigned counts[] = {300, 4096};
    static const unsigned widths[] = {9, 17, 32};
    struct picture pictures[6];
    int made = 0;
    for (int c = 0; c < 2; c++)
        for (int w = 0; w < 3; w++)
            pictures[made++] = make_picture(counts[c], widths[w]);
    unsigned long own = allocations;

    for (int k = 0; k < made; k++)
        compare_all(&pictures[k]);

    printf("%-36s %10s %10s %8s\n", "case", "ours ns", "plain ns", "ratio");
    double worst[2] = {0, 0};
    for (int asks = 1; asks >= 0; asks--)
        for (int k = 0; k < made; k++) {
            double ratio = measure(asks, &pictures[k]);
            if (ratio > worst[asks])
                worst[asks] = ratio;
        }
    printf("worst ratio: ask %.2f, full read %.2f\n", worst[1], worst[0]);

    unsigned long library = allocations - own;
    /* the counter counts: each picture here was allocated */
    if (own < (unsigned long)made) {
        fprintf(stderr, "bench: allocations are not counted\n");
        return 1;
    }
    printf("allocations in the library's calls: %lu (the bench's own, to see that they are counted: %lu)\n", library, own);
    return library != 0;
}
