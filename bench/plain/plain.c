/* Does by hand what `sodac plain` does for three programs: reads an array of cells from a file, computes, and writes the
   array that comes of it. The words are KERNEL FORM WIDTH ROWS INPUT OUTPUT; with FORM "make" it makes an input in text
   at INPUT and in raw form at OUTPUT. */
#include <stddef.h>
#include <stdint.h>
#include <stdio.h>
#include <stdlib.h>
#include <string.h>

enum { TURNS = 10 };

static size_t width, rows, cells;

static void stop(const char *why) {
  fprintf(stderr, "%s\n", why);
  exit(1);
}

static void *room(size_t bytes) {
  void *made = calloc(bytes ? bytes : 1, 1);
  if (made == NULL) stop("out of memory");
  return made;
}

/* A file, whole. */
static unsigned char *whole(const char *name, size_t *length) {
  FILE *file = fopen(name, "rb");
  if (file == NULL || fseek(file, 0, SEEK_END) != 0) stop("not opened");
  *length = ftell(file);
  rewind(file);
  unsigned char *bytes = room(*length);
  if (fread(bytes, 1, *length, file) != *length) stop("a read failed");
  fclose(file);
  return bytes;
}

static int is_space(int byte) {
  return byte == ' ' || byte == '\n' || byte == '\t' || byte == '\r' || byte == '\f';
}

/* The cells of a text, between these two numbers. */
static void read_text(const char *name, int32_t *out, int64_t least, int64_t most) {
  size_t length, at = 0, count = 0;
  unsigned char *bytes = whole(name, &length);
  for (;;) {
    while (at < length && is_space(bytes[at])) at++;
    if (at == length) break;
    if (count == cells) stop("too many cells");
    int minus = bytes[at] == '-';
    size_t first = at += minus;
    int64_t value = 0;
    for (; at < length && !is_space(bytes[at]); at++) {
      if (bytes[at] < '0' || bytes[at] > '9' || at - first > 60) stop("bad cell");
      value = value > UINT32_MAX ? value : value * 10 + (bytes[at] - '0');
    }
    if (at == first) stop("bad cell");
    if (minus) value = -value;
    if (value < least || value > most) stop("out of range");
    out[count++] = (int32_t)value;
  }
  if (count != cells) stop("too few cells");
  free(bytes);
}

static void read_raw(const char *name, int32_t *out, size_t size, int64_t least) {
  size_t length;
  unsigned char *bytes = whole(name, &length);
  if (length != cells * size) stop("not so many cells");
  for (size_t i = 0; i < cells; i++) {
    uint32_t value = 0;
    for (size_t k = 0; k < size; k++) value |= (uint32_t)bytes[i * size + k] << (8 * k);
    out[i] = least < 0 ? (int32_t)value : (int32_t)(value & (uint32_t)(((uint64_t)1 << (8 * size)) - 1));
  }
  free(bytes);
}

static void write_text(const char *name, const int32_t *out) {
  FILE *file = fopen(name, "wb");
  unsigned char *line = room(width * 12 + 1);
  if (file == NULL) stop("not created");
  for (size_t y = 0; y < rows; y++) {
    size_t filled = 0;
    for (size_t x = 0; x < width; x++) {
      unsigned char digits[12];
      int64_t cell = out[y * width + x];
      uint64_t rest = cell < 0 ? -cell : cell;
      size_t count = 0;
      do digits[count++] = '0' + rest % 10; while ((rest /= 10) != 0);
      if (cell < 0) line[filled++] = '-';
      while (count > 0) line[filled++] = digits[--count];
      line[filled++] = x + 1 == width ? '\n' : ' ';
    }
    if (fwrite(line, 1, filled, file) != filled) stop("a write failed");
  }
  free(line);
  if (fclose(file) != 0) stop("a write failed");
}

static void write_raw(const char *name, const int32_t *out, size_t size) {
  FILE *file = fopen(name, "wb");
  unsigned char *bytes = room(cells * size);
  if (file == NULL) stop("not created");
  for (size_t i = 0; i < cells; i++)
    for (size_t k = 0; k < size; k++) bytes[i * size + k] = (uint32_t)out[i] >> (8 * k);
  if (fwrite(bytes, 1, cells * size, file) != cells * size) stop("a write failed");
  free(bytes);
  if (fclose(file) != 0) stop("a write failed");
}

static int32_t *blur(int32_t *in) {
  int32_t *row = room(cells * 4), *out = room(cells * 4);
  for (size_t y = 0; y < rows; y++)
    for (size_t x = 1; x + 1 < width; x++) {
      const int32_t *p = in + y * width + x;
      row[y * width + x] = (p[-1] + p[0] + p[1]) / 3;
    }
  for (size_t y = 1; y + 1 < rows; y++)
    for (size_t x = 1; x + 1 < width; x++) {
      const int32_t *p = row + y * width + x;
      out[y * width + x] = (p[-(ptrdiff_t)width] + p[0] + p[width]) / 3;
    }
  free(row);
  return out;
}

static int32_t *jacobi(int32_t *in) {
  int32_t *out = room(cells * 4);
  memcpy(out, in, cells * 4);
  for (int turn = 0; turn < TURNS; turn++) {
    for (size_t y = 1; y + 1 < rows; y++)
      for (size_t x = 1; x + 1 < width; x++) {
        const int32_t *p = in + y * width + x;
        out[y * width + x] = (p[-(ptrdiff_t)width] + p[-1] + p[1] + p[width]) / 4;
      }
    int32_t *other = in;
    in = out;
    out = other;
  }
  return in;
}

static int32_t magnitude(int32_t v) { return v < 0 ? -v : v; }

static int32_t *sobel(int32_t *in) {
  int32_t *out = room(cells * 4);
  for (size_t y = 1; y + 1 < rows; y++)
    for (size_t x = 1; x + 1 < width; x++) {
      const int32_t *a = in + (y - 1) * width + x, *b = a + width, *c = b + width;
      int16_t across = a[1] + 2 * b[1] + c[1] - a[-1] - 2 * b[-1] - c[-1];
      int16_t down = c[-1] + 2 * c[0] + c[1] - a[-1] - 2 * a[0] - a[1];
      int32_t sum = magnitude(across) + magnitude(down);
      out[y * width + x] = sum < 255 ? sum : 255;
    }
  return out;
}

int main(int argc, char **argv) {
  if (argc != 7) stop("words: KERNEL FORM WIDTH ROWS INPUT OUTPUT");
  const char *kernel = argv[1];
  width = strtoull(argv[3], NULL, 10);
  rows = strtoull(argv[4], NULL, 10);
  cells = width * rows;
  size_t size = !strcmp(kernel, "blur") ? 2 : !strcmp(kernel, "jacobi") ? 4 : 1;
  int64_t least = size == 4 ? INT32_MIN : 0, most = size == 4 ? INT32_MAX : size == 2 ? 65535 : 255;
  int32_t *in = room(cells * 4);
  if (!strcmp(argv[2], "make")) {
    uint64_t seed = 1;
    for (size_t i = 0; i < cells; i++) {
      seed = seed * 6364136223846793005u + 1442695040888963407u;
      in[i] = size == 4 ? (int32_t)(seed >> 33) % 100000 : (int32_t)((seed >> 33) & (uint64_t)most);
    }
    write_text(argv[5], in);
    write_raw(argv[6], in, size);
    return 0;
  }
  int raw = !strcmp(argv[2], "raw");
  if (raw) read_raw(argv[5], in, size, least);
  else read_text(argv[5], in, least, most);
  int32_t *out = size == 2 ? blur(in) : size == 4 ? jacobi(in) : sobel(in);
  if (raw) write_raw(argv[6], out, size);
  else write_text(argv[6], out);
  return 0;
}
