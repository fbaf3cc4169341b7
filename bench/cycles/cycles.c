/* Cycles of a blur of unroll factor 16, over queues as rings in one region, in plain C. */
#include <stdint.h>
#include <stdio.h>
#include <stdlib.h>
#include <string.h>
#include <time.h>

typedef __int128 item;
enum kind { SOURCE, FORWARD, COMPUTE, SINK };
struct module { enum kind kind; uint64_t age; uint32_t lane; };
struct queue { uint32_t from, to, port; uint64_t capacity, lead; };
struct ring { size_t begin, end, put, take, held; };

#define U 16
#define GAP 125

static struct module modules[256];
static struct queue queues[1024];
static uint32_t module_count, queue_count;

static uint32_t module(enum kind kind, uint64_t age, uint32_t lane) {
    modules[module_count] = (struct module){kind, age, lane};
    return module_count++;
}
static void queue(uint32_t from, uint32_t to, uint32_t port, uint64_t capacity, uint64_t lead) {
    queues[queue_count++] = (struct queue){from, to, port, capacity, lead};
}

static void build(void) {
    uint32_t in[3][U], blur[2][U], x[U], y[U];
    for (uint32_t r = 0; r < U; r++)
        for (int t = 2; t >= 1; t--) in[t][r] = module(FORWARD, (uint64_t)t * GAP, r);
    for (uint32_t r = U - 2; r < U; r++) blur[1][r] = module(FORWARD, 1, r);
    uint32_t source = module(SOURCE, 0, 0);
    for (uint32_t r = 0; r < U; r++) in[0][r] = module(FORWARD, 0, r);
    for (uint32_t r = 0; r < U; r++) x[r] = module(COMPUTE, 0, r);
    for (uint32_t r = 0; r < U; r++) blur[0][r] = module(FORWARD, 0, r);
    for (uint32_t r = 0; r < U; r++) y[r] = module(COMPUTE, 0, r);
    uint32_t sink = module(SINK, 0, 0);
    for (uint32_t r = 0; r < U; r++) {
        queue(source, in[0][r], 0, 1, 0);
        queue(in[0][r], in[1][r], 0, GAP, 0);
        queue(in[1][r], in[2][r], 0, GAP, 0);
        for (uint32_t t = 0; t < 3; t++) queue(in[t][r], x[r], t, 1, (uint64_t)t * GAP);
    }
    for (uint32_t r = 0; r < U; r++) {
        queue(x[r], blur[0][r], 0, 1, 0);
        if (r >= U - 2) queue(blur[0][r], blur[1][r], 0, 1, 0);
        for (uint32_t s = 0; s < 3; s++) {
            uint32_t t = (r + s) / U;
            queue(blur[t][r], y[(r + s) % U], s, 1, t);
        }
    }
    for (uint32_t r = 0; r < U; r++) queue(y[r], sink, r, 1, 0);
}

/* Two flat lists with begins: the queues to a module by port, and those from it. */
static uint32_t to_begin[257], to_list[1024], from_begin[257], from_list[1024];
static void lists(void) {
    uint32_t a = 0, b = 0;
    for (uint32_t m = 0; m < module_count; m++) {
        to_begin[m] = a;
        from_begin[m] = b;
        for (uint32_t q = 0; q < queue_count; q++) {
            if (queues[q].to == m) {
                uint32_t k = a++;
                while (k > to_begin[m] && queues[to_list[k - 1]].port > queues[q].port) {
                    to_list[k] = to_list[k - 1];
                    k--;
                }
                to_list[k] = q;
            }
            if (queues[q].from == m) from_list[b++] = q;
        }
    }
    to_begin[module_count] = a;
    from_begin[module_count] = b;
}

static struct ring rings[1024];
static item *region;
static uint64_t fired[256];
static item checksum;

static inline item take(struct ring *ring) {
    item value = region[ring->take];
    ring->take = ring->take + 1 == ring->end ? ring->begin : ring->take + 1;
    ring->held--;
    return value;
}
static inline void put(struct ring *ring, item value) {
    region[ring->put] = value;
    ring->put = ring->put + 1 == ring->end ? ring->begin : ring->put + 1;
    ring->held++;
}

/* 2 where it fired, 1 where it was held, 0 where it has no firing left. */
static int visit(uint32_t m, uint64_t firings, const uint8_t *stalled) {
    uint64_t k = fired[m];
    uint64_t limit = firings > modules[m].age ? firings - modules[m].age : 0;
    if (k >= limit) return 0;
    if (stalled[m]) return 1;
    uint32_t a = to_begin[m], b = to_begin[m + 1], c = from_begin[m], d = from_begin[m + 1];
    for (uint32_t i = a; i < b; i++)
        if (queues[to_list[i]].lead <= k && rings[to_list[i]].held == 0) return 1;
    for (uint32_t i = c; i < d; i++) {
        struct ring *ring = &rings[from_list[i]];
        if (ring->held == ring->end - ring->begin) return 1;
    }
    item ports[64];
    for (uint32_t i = a; i < b; i++) ports[i - a] = queues[to_list[i]].lead <= k ? take(&rings[to_list[i]]) : 0;
    switch (modules[m].kind) {
    case SOURCE:
        for (uint32_t i = c; i < d; i++) put(&rings[from_list[i]], (item)(k % 4096 * U + (i - c)));
        break;
    case FORWARD:
        for (uint32_t i = c; i < d; i++) put(&rings[from_list[i]], ports[0]);
        break;
    case COMPUTE: {
        item sum = 0;
        for (uint32_t i = 0; i < b - a; i++) sum += ports[i];
        for (uint32_t i = c; i < d; i++) put(&rings[from_list[i]], sum);
        break;
    }
    case SINK:
        for (uint32_t i = 0; i < b - a; i++) checksum += ports[i];
        break;
    }
    fired[m] = k + 1;
    return 2;
}

int main(int argc, char **argv) {
    uint64_t cycles = argc > 1 ? strtoull(argv[1], 0, 10) : 100000;
    build();
    lists();
    size_t total = 0;
    for (uint32_t q = 0; q < queue_count; q++) {
        rings[q] = (struct ring){total, total + queues[q].capacity, total, total, 0};
        total += queues[q].capacity;
    }
    region = calloc(total, sizeof *region);
    uint8_t *stalled = calloc(module_count, 1);
    uint64_t all = 0, held = 0;
    struct timespec t0, t1;
    clock_gettime(CLOCK_MONOTONIC, &t0);
    for (uint64_t n = 0; n < cycles; n++)
        for (uint32_t m = 0; m < module_count; m++) {
            int did = visit(m, cycles, stalled);
            all += did == 2;
            held += did == 1;
        }
    clock_gettime(CLOCK_MONOTONIC, &t1);
    double ns = (t1.tv_sec - t0.tv_sec) * 1e9 + (t1.tv_nsec - t0.tv_nsec);
    printf("modules %u queues %u\nfired %llu held %llu checksum %lld\n", module_count, queue_count,
           (unsigned long long)all, (unsigned long long)held, (long long)checksum);
    fprintf(stderr, "c: %.1f ns a cycle\n", ns / (double)cycles);
    return 0;
}
