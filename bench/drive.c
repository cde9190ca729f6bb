// Runs the jobs of the bench on the walk in C and on the proved one.
//   drive jobs                   the jobs' names
//   drive JOB c|proved TIMES     grounds the job so many times
//   drive JOB same               grounds it once on each side, and fails where the answers or any list cell differ
//   drive JOB times              milliseconds of a grounding: least and median of ten on each side, in turns
#include "walk.h"
#include <stdbool.h>
#include <stdio.h>
#include <stdlib.h>
#include <string.h>
#include <time.h>

enum { CELLS = 4096, JOB = 32768, ROUNDS = 10 };

static uint8_t job[JOB];
static uint64_t length;

static void byte(uint32_t b) { job[length++] = (uint8_t)b; }

static void four(uint32_t n) {
  for (int shift = 24; shift >= 0; shift -= 8)
    byte(n >> shift);
}

static void field(uint32_t tag, uint32_t bytes) {
  byte(tag);
  byte(bytes >> 8);
  byte(bytes);
}

static void predicate(uint32_t arity, bool solved) {
  field(1, 2);
  byte(arity);
  byte(solved);
}

static void row(uint32_t predicate, uint32_t arity, uint32_t a, uint32_t b) {
  field(2, 1 + 4 * arity);
  byte(predicate);
  four(a);
  if (arity == 2)
    four(b);
}

static void variable(uint32_t v) {
  byte(1);
  four(v);
}

static void variables(uint32_t many, const uint32_t *v) {
  for (uint32_t j = 0; j < many; j++)
    variable(v[j]);
}

static void head(uint32_t predicate, uint32_t arity, const uint32_t *v) {
  field(3, 1 + 5 * arity);
  byte(predicate);
  variables(arity, v);
}

static void literal(bool negated, uint32_t predicate, uint32_t arity, const uint32_t *v) {
  field(4, 2 + 5 * arity);
  byte(negated);
  byte(predicate);
  variables(arity, v);
}

static void less_than(uint32_t v, uint32_t w) {
  field(5, 10);
  variable(v);
  variable(w);
}

static uint64_t seed;

// Marsaglia's xorshift, with the same seed for every job.
static uint32_t any(uint32_t below) {
  seed ^= seed << 13;
  seed ^= seed >> 7;
  seed ^= seed << 17;
  return (uint32_t)(seed >> 32) % below;
}

#define V(...) ((const uint32_t[]){__VA_ARGS__})

// h(X,Z): p(X,Y), q(Y,Z), 512 rows each; few Y are in both.
static void join(void) {
  predicate(2, true);
  predicate(2, true);
  predicate(2, false);
  for (uint32_t p = 0; p < 2; p++)
    for (uint32_t k = 0; k < 512; k++)
      p == 0 ? row(0, 2, k, any(32768)) : row(1, 2, any(32768), k);
  head(2, 2, V(0, 2));
  literal(false, 0, 2, V(0, 1));
  literal(false, 1, 2, V(1, 2));
}

// h(X,Y,Z): e(X,Y), e(Y,Z), e(Z,X), 1,024 edges of 512 nodes.
static void triangle(void) {
  predicate(2, true);
  predicate(3, false);
  for (uint32_t k = 0; k < 1024; k++) {
    uint32_t from = any(512);
    row(0, 2, from, any(512));
  }
  head(1, 3, V(0, 1, 2));
  literal(false, 0, 2, V(0, 1));
  literal(false, 0, 2, V(1, 2));
  literal(false, 0, 2, V(2, 0));
}

// h(V0): p0(V0,V1), p1(V1,V2), .. p7(V7,V8), 128 rows each over 32 numbers. About 4 rows go on from each: the plain count is 96,942,464.
static void chain(void) {
  for (uint32_t p = 0; p < 8; p++)
    predicate(2, true);
  predicate(1, false);
  for (uint32_t p = 0; p < 8; p++)
    for (uint32_t k = 0; k < 128; k++) {
      uint32_t from = any(32);
      row(p, 2, from, any(32));
    }
  head(8, 1, V(0));
  for (uint32_t p = 0; p < 8; p++)
    literal(false, p, 2, V(p, p + 1));
}

// first(A,B): event(A,S), event(B,T), S < T, with 1,000 events of 24 numbers; and, where asked, not manual(A), which 8 of them are.
static void night(bool negated) {
  predicate(2, true);
  predicate(1, true);
  predicate(2, false);
  for (uint32_t k = 0; k < 1000; k++) {
    uint32_t number = any(24);
    row(0, 2, number, any(100000));
  }
  for (uint32_t k = 0; k < 8; k++)
    row(1, 1, 3 * k, 0);
  head(2, 2, V(0, 2));
  literal(false, 0, 2, V(0, 1));
  literal(false, 0, 2, V(2, 3));
  less_than(1, 3);
  if (negated)
    literal(true, 1, 1, V(0));
}

static void night_less(void) { night(false); }

static void night_not(void) { night(true); }

static const struct {
  const char *name;
  void (*make)(void);
  uint32_t allowance;
} jobs[] = {{"join", join, UINT32_MAX},
            {"triangle", triangle, UINT32_MAX},
            {"chain", chain, UINT32_MAX},
            {"night", night_less, 1000000},
            {"night-not", night_not, 1000000}};

enum { JOBS = sizeof jobs / sizeof *jobs };

static uint32_t allowance, list[CELLS], other[CELLS];

static struct answer ground(bool proved, uint32_t *cells) {
  if (!proved)
    return walk_ground(job, length, allowance, cells, CELLS);
  struct answer a;
  a.entries = yozgarmi_ground(job, length, allowance, cells, CELLS, &a.ending, &a.tests);
  return a;
}

static int same(void) {
  static const char *endings[] = {"complete", "stopped", "full", "refused"};
  memset(list, 0xa5, sizeof list);
  memset(other, 0xa5, sizeof other);
  struct answer a = ground(false, list), b = ground(true, other);
  if (a.ending != b.ending || a.entries != b.entries || a.tests != b.tests || memcmp(list, other, sizeof list)) {
    fprintf(stderr, "the two differ: %s %llu %llu in C, %s %llu %llu proved\n", endings[a.ending], (unsigned long long)a.entries,
            (unsigned long long)a.tests, endings[b.ending], (unsigned long long)b.entries, (unsigned long long)b.tests);
    return 1;
  }
  printf("%s %llu %llu\n", endings[a.ending], (unsigned long long)a.entries, (unsigned long long)a.tests);
  return 0;
}

static double now(void) {
  struct timespec t;
  clock_gettime(CLOCK_MONOTONIC, &t);
  return 1e3 * (double)t.tv_sec + 1e-6 * (double)t.tv_nsec;
}

static double timed(bool proved, int times) {
  double from = now();
  for (int k = 0; k < times; k++)
    ground(proved, list);
  return (now() - from) / times;
}

static int by_size(const void *a, const void *b) {
  double x = *(const double *)a, y = *(const double *)b;
  return (x > y) - (x < y);
}

static void times(void) {
  double took[2][ROUNDS];
  int enough = 1 + (int)(20 / timed(false, 1)); // some 20 ms
  for (int r = 0; r < ROUNDS; r++)
    for (int proved = 0; proved < 2; proved++)
      took[proved][r] = timed(proved, enough);
  for (int proved = 0; proved < 2; proved++) {
    qsort(took[proved], ROUNDS, sizeof(double), by_size);
    printf("%.3f %.3f%s", took[proved][0], (took[proved][ROUNDS / 2 - 1] + took[proved][ROUNDS / 2]) / 2, proved ? "\n" : " ");
  }
}

int main(int words, char **word) {
  if (words == 2 && !strcmp(word[1], "jobs")) {
    for (int k = 0; k < JOBS; k++)
      puts(jobs[k].name);
    return 0;
  }
  for (int k = 0; k < JOBS && words > 2; k++) {
    if (strcmp(word[1], jobs[k].name))
      continue;
    seed = 88172645463325252;
    allowance = jobs[k].allowance;
    jobs[k].make();
    if (!strcmp(word[2], "same"))
      return same();
    if (!strcmp(word[2], "times")) {
      times();
      return 0;
    }
    for (int left = words > 3 ? atoi(word[3]) : 1; left > 0; left--)
      ground(!strcmp(word[2], "proved"), list);
    return 0;
  }
  fprintf(stderr, "usage: drive jobs | drive JOB same | drive JOB times | drive JOB c|proved TIMES\n");
  return 2;
}
