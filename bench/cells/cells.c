/* Reads an array of int32 cells from one file, and writes it to another, as crates/bench_cells does: in text through a
   buffer of 4,096 bytes, and in raw form a burst word of 64 bytes at a time. It prints the sum of the cells. With the
   word "make" it writes the cells of a text instead. */
#include <fcntl.h>
#include <stdint.h>
#include <stdio.h>
#include <stdlib.h>
#include <string.h>
#include <unistd.h>

enum { BLOCK = 4096, WORD = 64, LINE = 100, LONGEST_RUN = 64, LONGEST_CELL = 41 };

static unsigned char buffer[BLOCK];
static size_t start, filled;

static void stop(const char *why) {
  fprintf(stderr, "%s\n", why);
  exit(1);
}

/* Reads at most so many bytes, and says whether there were any. */
static int fill(int file, size_t most) {
  ssize_t got = read(file, buffer + filled, most);
  if (got < 0) stop("a read failed");
  filled += got;
  return got > 0;
}

static int next_byte(int file) {
  if (start == filled) {
    start = filled = 0;
    if (!fill(file, BLOCK)) return -1;
  }
  return buffer[start++];
}

static int is_space(int byte) {
  return byte == ' ' || byte == '\n' || byte == '\t' || byte == '\r' || byte == '\f';
}

/* The next cell of a text; there is a fault where it is none, or out of range. */
static int64_t text_cell(int file, uint64_t *left) {
  int byte = next_byte(file), minus = 0;
  unsigned count = 0, digits = 0;
  uint64_t value = 0;
  while (byte >= 0 && is_space(byte)) {
    if ((*left)-- == 0) stop("too long");
    byte = next_byte(file);
  }
  if (byte < 0) stop("too few");
  while (byte >= 0 && !is_space(byte)) {
    if ((*left)-- == 0) stop("too long");
    if (++count > LONGEST_RUN) stop("bad cell");
    if (byte == '-' && count == 1) {
      minus = 1;
    } else if (byte >= '0' && byte <= '9') {
      digits++;
      value = value > UINT32_MAX ? value : value * 10 + (byte - '0');
    } else {
      stop("bad cell");
    }
    byte = next_byte(file);
  }
  if (byte >= 0 && (*left)-- == 0) stop("too long");
  if (digits == 0) stop("bad cell");
  if (value > (uint64_t)INT32_MAX + minus) stop("out of range");
  return minus ? -(int64_t)value : (int64_t)value;
}

static void read_text(int file, int64_t *cells, size_t count) {
  uint64_t left = 64 * (uint64_t)count + 65536;
  int byte;
  for (size_t i = 0; i < count; i++) cells[i] = text_cell(file, &left);
  while ((byte = next_byte(file)) >= 0)
    if (!is_space(byte) || left-- == 0) stop("too many");
}

static void read_raw(int file, int64_t *cells, size_t count) {
  for (size_t i = 0; i < count; i++) {
    size_t rest = (count - i) * 4;
    if (start == filled) start = filled = 0;
    while (filled - start < 4) {
      size_t most = WORD - filled < rest ? WORD - filled : rest;
      if (!fill(file, most)) stop("too few");
    }
    uint32_t value = (uint32_t)buffer[start] | (uint32_t)buffer[start + 1] << 8 | (uint32_t)buffer[start + 2] << 16 |
                     (uint32_t)buffer[start + 3] << 24;
    cells[i] = (int32_t)value;
    start += 4;
  }
  start = filled = 0;
  if (fill(file, 1)) stop("too many");
}

static void flush(int file) {
  size_t done = 0;
  while (done < filled) {
    ssize_t took = write(file, buffer + done, filled - done);
    if (took <= 0) stop("a write failed");
    done += took;
  }
  filled = 0;
}

static void put_decimal(int64_t cell) {
  unsigned char digits[24];
  size_t count = 0;
  uint64_t rest = cell < 0 ? -(uint64_t)cell : (uint64_t)cell;
  do {
    digits[count++] = '0' + rest % 10;
    rest /= 10;
  } while (rest != 0);
  if (cell < 0) buffer[filled++] = '-';
  while (count > 0) buffer[filled++] = digits[--count];
}

static void write_text(int file, const int64_t *cells, size_t count) {
  filled = 0;
  for (size_t i = 0; i < count; i++) {
    if (filled > BLOCK - LONGEST_CELL) flush(file);
    if (i > 0) buffer[filled++] = i % LINE == 0 ? '\n' : ' ';
    put_decimal(cells[i]);
  }
  if (count > 0) buffer[filled++] = '\n';
  flush(file);
}

static void write_raw(int file, const int64_t *cells, size_t count) {
  filled = 0;
  for (size_t i = 0; i < count; i++) {
    uint32_t value = (uint32_t)cells[i];
    for (int k = 0; k < 4; k++) buffer[filled++] = value >> (8 * k);
    if (filled == WORD) flush(file);
  }
  flush(file);
}

/* Cells of up to ten digits, of both signs. */
static void make(int64_t *cells, size_t count) {
  uint64_t seed = 1;
  for (size_t i = 0; i < count; i++) {
    seed = seed * 6364136223846793005u + 1442695040888963407u;
    cells[i] = (int32_t)(uint32_t)(seed >> 32) >> (seed >> 27 & 31);
  }
}

int main(int argc, char **argv) {
  if (argc != 4 && argc != 6) stop("words: CELLS FORM FILE [FORM FILE]");
  size_t count = strtoull(argv[1], NULL, 10);
  int64_t *cells = malloc(count * sizeof *cells);
  if (cells == NULL) stop("out of memory");
  if (!strcmp(argv[2], "make")) {
    make(cells, count);
  } else {
    int file = open(argv[3], O_RDONLY);
    if (file < 0) stop("not opened");
    (strcmp(argv[2], "raw") ? read_text : read_raw)(file, cells, count);
  }
  if (argc == 6) {
    int file = open(argv[5], O_WRONLY | O_CREAT | O_TRUNC, 0666);
    if (file < 0) stop("not created");
    (strcmp(argv[4], "raw") ? write_text : write_raw)(file, cells, count);
  }
  int64_t sum = 0;
  for (size_t i = 0; i < count; i++) sum += cells[i];
  printf("%lld\n", (long long)sum);
  return 0;
}
