// Solves the nets that the program bench_solve makes, by the same method in plain C, and prints the same line.
#include <stdint.h>
#include <stdio.h>
#include <stdlib.h>
#include <string.h>

enum { TENSORS = 512, READS = 16384, NODES = 2 * TENSORS };
enum kind { WINDOW, STORAGE, WINDOW_BACK, STORAGE_BACK };

struct read { uint32_t reader, of; int64_t offset; };
struct step { uint32_t from, to, read; enum kind kind; int64_t length; };
struct mark { int reached, risen; int64_t length; const struct step *last; };

static uint32_t tensors, reads, steps;
static uint8_t width[TENSORS];
static struct read read_[READS];
static uint32_t hold[READS], need[READS];
static struct step step[4 * READS];
static uint32_t begin[NODES + 1];
static struct mark mark[NODES];
static int64_t length[NODES], longer[NODES];

static uint32_t next(uint32_t seed) { return ((uint64_t)seed * 1103515245 + 12345) % 2147483648; }

static void make_net(int chain, uint32_t each) {
  uint32_t seed = 1;
  for (uint32_t t = 0; t < tensors; t++) { seed = next(seed); width[t] = seed / 65536 % 64 + 1; }
  seed = 1;
  for (uint32_t t = 1; t < tensors; t++)
    for (uint32_t place = 0; place < each; place++) {
      uint32_t of = next(seed);
      seed = next(of);
      read_[reads++] = chain
        ? (struct read){t, t - 1, (int64_t)place * 1000 - seed / 64 % 50}
        : (struct read){t, of / 65536 % t, (int64_t)(seed / 64 % 2097153) - 1048576};
    }
}

static int by_node(const void *a, const void *b) {
  uint32_t x = ((const struct step *)a)->from, y = ((const struct step *)b)->from;
  return (x > y) - (x < y);
}

// The steps in the order of the nodes that they leave: node t is the delay of tensor t, node tensors + t its delay plus storage.
static void make_steps(void) {
  for (uint32_t r = 0; r < reads; r++) {
    struct read x = read_[r];
    step[steps++] = (struct step){x.of, x.reader, r, WINDOW, x.offset};
    step[steps++] = (struct step){x.reader, tensors + x.of, r, STORAGE, -x.offset};
    step[steps++] = (struct step){x.reader, x.of, r, WINDOW_BACK, -x.offset};
    step[steps++] = (struct step){tensors + x.of, x.reader, r, STORAGE_BACK, x.offset};
  }
  qsort(step, steps, sizeof *step, by_node);
  for (uint32_t v = 0, k = 0; v <= NODES; v++) { while (k < steps && step[k].from < v) k++; begin[v] = k; }
}

static uint32_t room(const struct step *s) {
  return s->kind == WINDOW_BACK ? need[s->read] : s->kind == STORAGE_BACK ? hold[s->read] : UINT32_MAX;
}

static int visit(uint32_t node) {
  if (!mark[node].risen) return 0;
  mark[node].risen = 0;
  int further = 0;
  int64_t so_far = mark[node].length;
  for (uint32_t k = begin[node]; k < begin[node + 1]; k++) {
    const struct step *s = &step[k];
    struct mark *to = &mark[s->to];
    int64_t l = so_far + s->length;
    if (room(s) == 0 || (to->reached && l <= to->length)) continue;
    *to = (struct mark){1, 1, l, s};
    further = 1;
  }
  return further;
}

// Marks the nodes that longest walks from a node come to.
static void search(uint32_t from) {
  memset(mark, 0, sizeof mark);
  mark[from] = (struct mark){1, 1, 0, NULL};
  for (int back = 0, further = 1; further; back = !back) {
    further = 0;
    for (uint32_t i = 0; i < tensors; i++) {
      uint32_t t = back ? tensors - 1 - i : i;
      further |= visit(tensors + t);
      further |= visit(t);
    }
  }
}

static void send(const struct step *s, uint32_t units) {
  switch (s->kind) {
    case WINDOW: need[s->read] += units; break;
    case STORAGE: hold[s->read] += units; break;
    case WINDOW_BACK: need[s->read] -= units; break;
    case STORAGE_BACK: hold[s->read] -= units; break;
  }
}

// Sends the width of a tensor along longest walks from its one node to its other.
static void send_width(uint32_t t) {
  for (uint32_t left = width[t]; left > 0;) {
    search(t);
    if (!mark[tensors + t].reached) return;
    uint32_t units = left;
    const struct step *s;
    for (uint32_t v = tensors + t; v != t; v = s->from) { s = mark[v].last; if (room(s) < units) units = room(s); }
    for (uint32_t v = tensors + t; v != t; v = s->from) { s = mark[v].last; send(s, units); }
    left -= units;
  }
}

// The lengths of longest walks in what is left, round by round; 0 where the rounds don't end.
static int longest(void) {
  for (uint32_t round = 0; round < 2 * tensors; round++) {
    int further = 0;
    memcpy(longer, length, sizeof length);
    for (uint32_t k = 0; k < steps; k++) {
      const struct step *s = &step[k];
      int64_t l = length[s->from] + s->length;
      if (room(s) > 0 && l > longer[s->to]) { longer[s->to] = l; further = 1; }
    }
    if (!further) return 1;
    memcpy(length, longer, sizeof length);
  }
  return 0;
}

static unsigned __int128 storage(void) {
  int64_t oldest[TENSORS] = {0};
  for (uint32_t r = 0; r < reads; r++) {
    int64_t age = length[read_[r].reader] - read_[r].offset - length[read_[r].of];
    if (age > oldest[read_[r].of]) oldest[read_[r].of] = age;
  }
  unsigned __int128 bits = 0;
  for (uint32_t t = 0; t < tensors; t++) bits += (unsigned __int128)oldest[t] * width[t];
  return bits;
}

int main(int count, char **words) {
  if (count != 4) return 2;
  tensors = atoi(words[2]);
  make_net(!strcmp(words[1], "chain"), atoi(words[3]));
  make_steps();
  for (uint32_t t = 0; t < tensors; t++) send_width(t);
  int ended = longest();
  __int128 value = 0;
  for (uint32_t r = 0; r < reads; r++) value += ((__int128)need[r] - hold[r]) * read_[r].offset;
  uint32_t widths = 0;
  for (uint32_t t = 0; t < tensors; t++) widths += width[t];
  unsigned __int128 bits = storage();
  printf("reads %u widths %u storage %llu checked %s\n", reads, widths, (unsigned long long)bits,
         ended && value == (__int128)bits ? "true" : "false");
}
