// The blur, Jacobi and Sobel formulas over rows of 2,000 cells of 16 bits, four million cells, in plain C. A row's last cells
// read the beginning of the next.
#include <stdint.h>
#include <stdio.h>
#include <stdlib.h>
#include <time.h>

#define WIDTH 2000
#define ROWS 2000

static uint16_t a[WIDTH * ROWS];
static int32_t out[WIDTH * ROWS];

static void blur(const uint16_t *p, int32_t *o, int n) {
  for (int i = 0; i < n; i++) o[i] = (p[i - 1] + p[i] + p[i + 1]) / 3;
}

static void jacobi(const uint16_t *p, int32_t *o, int n) {
  for (int i = 0; i < n; i++) o[i] = (p[i + WIDTH] + p[i + 1] + p[i] + p[i - WIDTH] + p[i - 1]) / 5;
}

static void sobel(const uint16_t *p, int32_t *o, int n) {
  for (int i = 0; i < n; i++) {
    int x = (p[i + 1 - WIDTH] - p[i - 1 - WIDTH]) + (p[i + 1] - p[i - 1]) * 2 + (p[i + 1 + WIDTH] - p[i - 1 + WIDTH]);
    int y = (p[i + WIDTH - 1] - p[i - WIDTH - 1]) + (p[i + WIDTH] - p[i - WIDTH]) * 2 + (p[i + WIDTH + 1] - p[i - WIDTH + 1]);
    o[i] = abs(x) + abs(y);
  }
}

static uint64_t now(void) {
  struct timespec t;
  clock_gettime(CLOCK_MONOTONIC, &t);
  return t.tv_sec * 1000000000ull + t.tv_nsec;
}

static void timed(const char *name, void (*f)(const uint16_t *, int32_t *, int)) {
  uint64_t best = UINT64_MAX;
  for (int turn = 0; turn < 5; turn++) {
    uint64_t start = now();
    for (int r = 0; r < ROWS - 3; r++) f(a + (r + 1) * WIDTH + 1, out + r * WIDTH, WIDTH);
    uint64_t time = now() - start;
    if (time < best) best = time;
  }
  uint64_t sum = 0;
  for (int i = 0; i < WIDTH * ROWS; i++) sum += (uint32_t)out[i];
  printf("%s: %llu ns for 1000 cells, sum %llu\n", name, (unsigned long long)(best / (WIDTH * (ROWS - 3) / 1000)),
         (unsigned long long)sum);
}

int main(void) {
  for (uint64_t i = 0; i < WIDTH * ROWS; i++) a[i] = (uint16_t)(i * 2654435761ull >> 7 & 0xffff);
  timed("blur", blur);
  timed("jacobi", jacobi);
  timed("sobel", sobel);
  return 0;
}
