// Makes texts of programs, or reads one, in plain C: tokens, statements, trees of formulas, and a look-up
// of each name by a hash. It keeps the grammar and checks that names are known, and none of the other conditions.
#include <ctype.h>
#include <stdint.h>
#include <stdio.h>
#include <stdlib.h>
#include <string.h>

enum kind { NAME, NUMBER, SIGN, END };

struct token { enum kind kind; uint32_t line, begin, length; uint64_t value; };

struct tree { int sign; uint64_t value; uint32_t name, length; int places[4], count; struct tree *a, *b, *c; };

struct line { char what; uint32_t name, length; struct tree *formula; };

struct slot { uint32_t begin, length, place; };

static char *text;
static size_t bytes, room;
static struct token *tokens;
static size_t count, at;
static struct line *lines;
static size_t statements;
static struct slot *slots;
static size_t mask, declared, looked_up, unknown;

static void *more(size_t size) {
  void *p = malloc(size);
  if (!p) exit(1);
  return p;
}

static void fail(const char *why) {
  printf("bytes %zu line %u %s\n", bytes, tokens && at < count ? tokens[at].line : 0, why);
  exit(1);
}

static void add(const char *form, unsigned i) {
  if (room - bytes < 64) text = realloc(text, room = room * 2 + 4096);
  if (!text) exit(1);
  bytes += (size_t)snprintf(text + bytes, room - bytes, form, i);
}

static void make_text(const char *kind, unsigned size) {
  const char *head = "kernel: made\nburst width: 8\nunroll factor: 1\ninput int8: a(*)\noutput int8: o(0) = a(0)\n";
  for (const char *p = head; *p; p++) add("%c", (unsigned char)*p);
  unsigned reads = strcmp(kind, "formulas") == 0 ? 299 : strcmp(kind, "sums") == 0 ? 3 : 0;
  if (reads)
    for (unsigned i = 0; i < size; i++) {
      add("local int32: l%u(0) = a(0)", i);
      for (unsigned k = 0; k < reads; k++) add(" + a(-%u)", 12345);
      add("\n", 0);
    }
  if (strcmp(kind, "params") == 0) {
    for (unsigned i = 0; i < size; i++) add("param int8: p%u\n", i);
    for (unsigned i = 0; i < size; i++) {
      if (i % 500 == 0) { add("\nlocal int32: l%u(0) = ", i); add("p%u", i); } else add(" + p%u", i);
    }
  }
  if (strcmp(kind, "chain") == 0) {
    for (unsigned i = 0; i < size; i++) { add("local int8: l%u(0) = ", i); add("l%u(0)\n", i + 1); }
    add("local int8: l%u(0) = a(0)\n", size);
  }
}

static int goes_on(char c) { return isalnum((unsigned char)c) || c == '_'; }

static void tokenise(void) {
  static const char doubles[] = "||&&==!=<=>=", singles[] = "|^&<>+-*/%~!()[],:=.";
  uint32_t line = 1;
  size_t held = 1024;
  tokens = more(held * sizeof *tokens);
  for (size_t i = 0; i < bytes;) {
    char c = text[i];
    if (c == '\n') line++;
    if (c == ' ' || c == '\n' || c == '\t' || c == '\r') { i++; continue; }
    if (c == '#') { while (i < bytes && text[i] != '\n') i++; continue; }
    if (count + 1 == held) tokens = realloc(tokens, (held *= 2) * sizeof *tokens);
    if (!tokens) exit(1);
    struct token t = {SIGN, line, (uint32_t)i, 1, (unsigned char)c};
    if (goes_on(c)) {
      while (i + t.length < bytes && goes_on(text[i + t.length])) t.length++;
      t.kind = isdigit((unsigned char)c) ? NUMBER : NAME;
      if (t.kind == NAME && t.length > 64) fail("name");
      if (t.kind == NUMBER) {
        t.value = 0;
        for (size_t k = i; k < i + t.length; k++) {
          if (!isdigit((unsigned char)text[k]) || (text[i] == '0' && t.length > 1)) fail("number");
          uint64_t d = (uint64_t)(text[k] - '0');
          if (t.value > (UINT64_MAX - d) / 10) fail("number");
          t.value = t.value * 10 + d;
        }
      }
    } else {
      int known = 0;
      for (const char *p = doubles; *p && i + 1 < bytes; p += 2)
        if (p[0] == c && p[1] == text[i + 1]) {
          t.length = 2;
          t.value = t.value * 256 + (unsigned char)text[i + 1];
          known = 1;
        }
      if (!known && !strchr(singles, c)) fail("byte");
    }
    tokens[count++] = t;
    i += t.length;
  }
  tokens[count] = (struct token){END, line, (uint32_t)bytes, 0, 0};
}

static int is_sign(uint64_t sign) { return tokens[at].kind == SIGN && tokens[at].value == sign; }

static int is_text(const struct token *t, const char *word) {
  return t->kind == NAME && t->length == strlen(word) && memcmp(text + t->begin, word, t->length) == 0;
}

static int take(uint64_t sign) { return is_sign(sign) ? (at++, 1) : 0; }

static void want(uint64_t sign) { if (!take(sign)) fail("syntax"); }

static struct token word(void) {
  if (tokens[at].kind != NAME) fail("syntax");
  return tokens[at++];
}

static uint64_t number(void) {
  if (tokens[at].kind != NUMBER) fail("syntax");
  return tokens[at++].value;
}

static int64_t offset(void) {
  int minus = take('-');
  int64_t n = (int64_t)number();
  return minus ? -n : n;
}

static struct tree *node(int sign, struct tree *a, struct tree *b, struct tree *c) {
  struct tree *t = more(sizeof *t);
  *t = (struct tree){.sign = sign, .a = a, .b = b, .c = c};
  return t;
}

// How tight an operator of two operands binds, and -1 of another token.
static int level(void) {
  static const uint64_t ops[] = {'|' * 256 + '|', '&' * 256 + '&', '|', '^', '&', '=' * 256 + '=', '!' * 256 + '=',
    '<', '<' * 256 + '=', '>', '>' * 256 + '=', '+', '-', '*', '/', '%'};
  static const int levels[] = {0, 1, 2, 3, 4, 5, 5, 6, 6, 6, 6, 7, 7, 8, 8, 8};
  if (tokens[at].kind != SIGN) return -1;
  for (size_t k = 0; k < sizeof levels / sizeof *levels; k++)
    if (ops[k] == tokens[at].value) return levels[k];
  return -1;
}

static struct tree *formula(int least);

static int is_cast(const struct token *t) {
  const char *p = text + t->begin;
  size_t front = t->length > 3 && memcmp(p, "int", 3) == 0 ? 3 : t->length > 4 && memcmp(p, "uint", 4) == 0 ? 4 : 0;
  if (!front) return 0;
  for (size_t k = front; k < t->length; k++)
    if (!isdigit((unsigned char)p[k])) return 0;
  return 1;
}

static struct tree *named(void) {
  struct token t = word();
  int parts = is_text(&t, "select") ? 3 : is_text(&t, "min") || is_text(&t, "max") ? 2
    : is_text(&t, "abs") || is_cast(&t) ? 1 : 0;
  struct tree *tree = node('c', NULL, NULL, NULL);
  tree->name = t.begin;
  tree->length = t.length;
  if (parts) {
    want('(');
    tree->sign = 'f';
    tree->a = formula(0);
    if (parts > 1) { want(','); tree->b = formula(0); }
    if (parts > 2) { want(','); tree->c = formula(0); }
    want(')');
  } else if (take('(')) {
    do {
      if (tree->count == 4) fail("offsets");
      tree->places[tree->count++] = (int)offset();
    } while (take(','));
    want(')');
  } else {
    tree->sign = 'p';
    while (tree->count < 2 && take('[')) { tree->places[tree->count++] = (int)number(); want(']'); }
  }
  return tree;
}

static struct tree *operand(void) {
  if (tokens[at].kind == NUMBER) {
    struct tree *t = node('n', NULL, NULL, NULL);
    t->value = number();
    return t;
  }
  if (take('(')) {
    struct tree *t = formula(0);
    want(')');
    return t;
  }
  for (const char *p = "+-~!"; *p; p++)
    if (take((unsigned char)*p)) return node(*p, operand(), NULL, NULL);
  return named();
}

static struct tree *formula(int least) {
  struct tree *a = operand();
  for (int l = level(); l >= least; l = level()) {
    int sign = (int)tokens[at++].value;
    a = node(sign, a, formula(l + 1), NULL);
  }
  return a;
}

static void statement(void) {
  struct token t = word();
  struct line line = {(char)text[t.begin], 0, 0, NULL};
  if (is_text(&t, "burst") || is_text(&t, "unroll")) word();
  if (is_text(&t, "burst") || is_text(&t, "unroll") || is_text(&t, "iterate")) { want(':'); number(); }
  else if (is_text(&t, "kernel") || is_text(&t, "border") || is_text(&t, "cluster")) { want(':'); word(); }
  else {
    word();
    want(':');
    struct token name = word();
    line.name = name.begin;
    line.length = name.length;
    declared++;
    if (is_text(&t, "param")) while (take('[')) { number(); want(']'); }
    else if (is_text(&t, "input")) {
      if (take('(')) { do if (!take('*')) number(); while (take(',')); want(')'); }
    } else if (is_text(&t, "local") || is_text(&t, "output")) {
      want('(');
      do offset(); while (take(','));
      want(')');
      want('=');
      line.formula = formula(0);
    } else fail("syntax");
  }
  lines[statements++] = line;
}

static struct slot *slot(uint32_t begin, uint32_t length) {
  uint64_t hash = 14695981039346656037u;
  for (uint32_t k = 0; k < length; k++) hash = (hash ^ (unsigned char)text[begin + k]) * 1099511628211u;
  size_t i = (hash ^ hash >> 32) & mask;
  while (slots[i].length && (slots[i].length != length || memcmp(text + slots[i].begin, text + begin, length)))
    i = (i + 1) & mask;
  return &slots[i];
}

static void look_up(struct tree *t) {
  if (!t) return;
  if (t->sign == 'c' || t->sign == 'p') {
    struct slot *s = slot(t->name, t->length);
    looked_up++;
    if (s->length) t->value = s->place; else unknown++;
  }
  look_up(t->a);
  look_up(t->b);
  look_up(t->c);
}

static void read_text(const char *name) {
  FILE *file = fopen(name, "rb");
  if (!file) fail("no such file");
  room = 1 << 21;
  text = more(room);
  bytes = fread(text, 1, room - 1, file);
  if (ferror(file) || bytes == room - 1) fail("too long");
  text[bytes] = 0;
  fclose(file);
}

// The words KIND COUNT: prints the text of that kind and size. One word, FILE: reads the text that the file holds.
int main(int argc, char **argv) {
  if (argc == 3) {
    make_text(argv[1], (unsigned)atoi(argv[2]));
    return fwrite(text, 1, bytes, stdout) != bytes;
  }
  if (argc != 2) return 1;
  read_text(argv[1]);
  tokenise();
  lines = more((count + 1) * sizeof *lines);
  while (tokens[at].kind != END) statement();
  for (mask = 15; mask < 2 * declared; mask = mask * 2 + 1) continue;
  slots = calloc(mask + 1, sizeof *slots);
  if (!slots) return 1;
  size_t twice = 0;
  for (size_t i = 0; i < statements; i++)
    if (lines[i].length) {
      struct slot *s = slot(lines[i].name, lines[i].length);
      if (s->length) twice++; else *s = (struct slot){lines[i].name, lines[i].length, (uint32_t)i};
    }
  for (size_t i = 0; i < statements; i++) look_up(lines[i].formula);
  printf("bytes %zu statements %zu looked up %zu unknown %zu twice %zu\n", bytes, statements, looked_up, unknown, twice);
  return unknown || twice;
}
