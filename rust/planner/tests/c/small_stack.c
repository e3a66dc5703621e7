/* Plans of 24 activities by each call, on a stack of 640 KiB: a table of 448 KiB stands there while the
 * variants are searched. */
#include "vialbluff.h"

#include <assert.h>
#include <pthread.h>
#include <stdio.h>
#include <string.h>

enum { JOBS = 6, STEPS = 4, ACTS = JOBS * STEPS, WIDTH = ACTS + 1, DEVICES = 16, STACK = 640 * 1024, BYTES = 2175 };
enum { LONGEST = 20000, DOUBLING = 6, MERGED = 134596, CAP = 150000, CELLS = MERGED * WIDTH };
enum { CHOICES = ACTS / 2, PAIRS = 9 };

static char shop[BYTES + 1];
static char merge[BYTES + 1];
static char nest[BYTES + 1];
static char choices[BYTES + 1];
static char orders[BYTES + 1];
static char arms[BYTES + 1];
static uint32_t area[CELLS];
static uint8_t text[BYTES];

static void line(char *plan, const char *form, int a, int b) {
  const size_t at = strlen(plan);
  snprintf(plan + at, BYTES + 1 - at, form, a, b);
}

static void write_sequence(char *plan, int from, int to) {
  line(plan, "node=s,%d\n", to - from, 0);
  for (int i = from; i < to; i++) line(plan, "node=a,%d\n", i, 0);
}

/* Six jobs side by side, each on the four devices in turn: more sessions than the cap. */
static void write_shop(void) {
  line(shop, "plan=1\nres=%d\nacts=%d\n", STEPS, ACTS);
  for (int i = 0; i < ACTS; i++) line(shop, "act=%d,%d\n", i % STEPS, 1 + i % 7);
  line(shop, "nodes=%d\nnode=p,%d\n", 1 + JOBS * (1 + STEPS), JOBS);
  for (int job = 0; job < JOBS; job++) write_sequence(shop, job * STEPS, (job + 1) * STEPS);
}

/* Two sequences side by side on one device, one of the longest durations and one of doubling ones. A start in the first
 * has few values, each twice as far off as the one before: the sort of the rows parts them one by one, and so goes
 * deep. */
static void write_merge(void) {
  const int first = ACTS - DOUBLING;
  line(merge, "plan=1\nres=1\nacts=%d\n", ACTS, 0);
  for (int i = 0; i < ACTS; i++) line(merge, "act=0,%d\n", i < first ? LONGEST : 1 << (i - first), 0);
  line(merge, "nodes=%d\nnode=p,2\n", 3 + ACTS, 0);
  write_sequence(merge, 0, first);
  write_sequence(merge, first, ACTS);
}

/* Each group in the one before: an activity and the rest, by turns in sequence and side by side. */
static void write_nest(void) {
  line(nest, "plan=1\nres=%d\nacts=%d\n", DEVICES, ACTS);
  for (int i = 0; i < ACTS; i++) line(nest, "act=%d,1\n", i % DEVICES, 0);
  line(nest, "nodes=%d\n", 2 * ACTS - 1, 0);
  for (int i = 0; i < ACTS - 1; i++) line(nest, i % 2 == 0 ? "node=s,2\nnode=a,%d\n" : "node=p,2\nnode=a,%d\n", i, 0);
  line(nest, "node=a,%d\n", ACTS - 1, 0);
}

/* Choices side by side, each between two activities on a device of its own: every variant has other activities, and one
 * session. */
static void write_choices(void) {
  line(choices, "plan=1\nres=%d\nacts=%d\n", CHOICES, ACTS);
  for (int i = 0; i < ACTS; i++) line(choices, "act=%d,1\n", i / 2, 0);
  line(choices, "nodes=%d\nnode=p,%d\n", 1 + 3 * CHOICES, CHOICES);
  for (int i = 0; i < ACTS; i += 2) line(choices, "node=x,2\nnode=a,%d\nnode=a,%d\n", i, i + 1);
}

/* Choices side by side, each of two activities on a device of their own, in sequence or side by side: every variant has
 * the same activities, and one session that no lower variant has. */
static void write_orders(void) {
  line(orders, "plan=1\nres=%d\nacts=%d\n", PAIRS, ACTS);
  for (int i = 0; i < ACTS; i++) line(orders, "act=%d,1\n", i / 2 % PAIRS, 0);
  line(orders, "nodes=%d\nnode=p,%d\n", 1 + 7 * PAIRS, PAIRS);
  for (int i = 0; i < 2 * PAIRS; i += 2) {
    line(orders, "node=x,2\nnode=s,2\nnode=a,%d\nnode=a,%d\n", i, i + 1);
    line(orders, "node=p,2\nnode=a,%d\nnode=a,%d\n", i, i + 1);
  }
}

/* Four sequences side by side, each activity on every device, which has two units: one of each, or both of the first.
 * More sessions than the cap. */
static void write_arms(void) {
  line(arms, "plan=2\nres=%d\n", DEVICES, 0);
  for (int r = 0; r < DEVICES; r++) line(arms, "cap=2\n", 0, 0);
  line(arms, "acts=%d\n", ACTS, 0);
  for (int i = 0; i < ACTS; i++) {
    line(arms, "act=%d,%d", 1 + i * 5 % 17, 1 + i % 5 / 4);
    for (int r = 1; r < DEVICES; r++) line(arms, ",1", 0, 0);
    line(arms, "\n", 0, 0);
  }
  line(arms, "nodes=%d\nnode=p,%d\n", 1 + STEPS * (1 + JOBS), STEPS);
  for (int job = 0; job < STEPS; job++) write_sequence(arms, job * JOBS, (job + 1) * JOBS);
}

static int stands_before(const uint32_t *a, const uint32_t *b) {
  int i = 0;
  while (i < WIDTH && a[i] == b[i]) i++;
  return i < WIDTH && a[i] < b[i];
}

/* The plan has so many variants and sessions, all of one makespan, or more sessions than the cap if they are 0. */
static void call_each(const char *plan, uint64_t variants, uint64_t sessions) {
  const uint8_t *file = (const uint8_t *)plan;
  const size_t length = strlen(plan);
  const uint64_t refused = sessions == 0 ? 7 : 0;
  uint32_t starts[VIALBLUFF_PLACES] = {0};
  uint64_t out[4], best[5];
  vialbluff_read(file, length, out);
  assert(out[0] == 0 && out[1] == ACTS && out[3] == variants);
  vialbluff_write(file, length, 0, text, sizeof text, out);
  assert(out[0] == 0 && (variants > 1 || (out[1] == length && memcmp(text, plan, length) == 0)));
  vialbluff_check(file, length, 0, starts, out);
  assert(out[0] == 0 && out[1] == 0);
  vialbluff_list(file, length, CAP, area, CELLS, out);
  assert(out[0] == refused && out[1] == sessions);
  for (uint64_t i = 1; i < sessions; i++) assert(stands_before(area + (i - 1) * WIDTH, area + i * WIDTH));
  vialbluff_best(file, length, CAP, starts, best);
  assert(best[0] == refused && best[3] == sessions && best[4] == sessions);
}

static void *call_all(void *none) {
  call_each(shop, 1, 0);
  call_each(merge, 1, MERGED);
  call_each(nest, 1, 1);
  call_each(choices, 1 << CHOICES, 1 << CHOICES);
  call_each(orders, 1 << PAIRS, 1 << PAIRS);
  call_each(arms, 1, 0);
  return none;
}

int main(void) {
  pthread_attr_t attributes;
  pthread_t thread;
  write_shop();
  write_merge();
  write_nest();
  write_choices();
  write_orders();
  write_arms();
  assert(pthread_attr_init(&attributes) == 0);
  assert(pthread_attr_setstacksize(&attributes, STACK) == 0);
  assert(pthread_create(&thread, &attributes, call_all, NULL) == 0);
  assert(pthread_join(thread, NULL) == 0);
  return 0;
}
