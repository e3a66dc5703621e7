/* The dot test of the paper by each call, and a plan of edition 2, from C. */
#include "vialbluff.h"

#include <assert.h>
#include <string.h>

static const char PLAN[] =
    "plan=1\nres=3\nacts=5\nact=0,4\nact=1,2\nact=1,3\nact=2,5\nact=1,6\n"
    "nodes=9\nnode=s,2\nnode=x,2\nnode=a,0\nnode=p,2\nnode=a,1\nnode=a,2\nnode=p,2\nnode=a,3\nnode=a,4\n";

static const char VARIANT_0[] =
    "plan=1\nres=3\nacts=5\nact=0,4\nact=1,2\nact=1,3\nact=2,5\nact=1,6\n"
    "nodes=5\nnode=s,2\nnode=a,0\nnode=p,2\nnode=a,3\nnode=a,4\n";

#define ABSENT VIALBLUFF_ABSENT

enum { CELLS = 20, BYTES = 200, GUARD = 77 };

static const uint32_t ROWS[] = {
    0, 0,      ABSENT, ABSENT, 4, 4,
    1, ABSENT, 0,      2,      5, 5,
    1, ABSENT, 3,      0,      5, 5,
};

/* Behind each answer stands a guard. */
static int is(const uint64_t out[5], uint64_t a, uint64_t b, uint64_t c, uint64_t d) {
  return out[0] == a && out[1] == b && out[2] == c && out[3] == d && out[4] == GUARD;
}

static int is_best(const uint64_t out[6], uint64_t a, uint64_t b, uint64_t c, uint64_t d, uint64_t e) {
  return out[0] == a && out[1] == b && out[2] == c && out[3] == d && out[4] == e && out[5] == GUARD;
}

/* A job that needs both arms, and two that need one each. */
static const char ARMS[] =
    "plan=2\nres=1\ncap=2\nacts=3\nact=3,2\nact=2,1\nact=4,1\nnodes=4\nnode=p,3\nnode=a,0\nnode=a,1\nnode=a,2\n";

static const uint32_t ARM_ROWS[] = {0, 0, 3, 3, 0, 2, 0, 5, 0, 4, 0, 0};

static void call_arms(void) {
  uint8_t file[sizeof ARMS - 1], text[sizeof file];
  uint32_t starts[VIALBLUFF_PLACES], area[sizeof ARM_ROWS / sizeof *ARM_ROWS];
  uint64_t out[5] = {[4] = GUARD}, best[6] = {[5] = GUARD};
  memcpy(file, ARMS, sizeof file);
  vialbluff_write(file, sizeof file, 0, text, sizeof text, out);
  assert(is(out, 0, sizeof file, 0, 0) && memcmp(text, file, sizeof file) == 0);
  vialbluff_list(file, sizeof file, 3, area, sizeof area / sizeof *area, out);
  assert(is(out, 0, 3, 0, 0) && memcmp(area, ARM_ROWS, sizeof area) == 0);
  vialbluff_best(file, sizeof file, 3, starts, best);
  assert(is_best(best, 0, 0, 7, 3, 2) && starts[0] == 0 && starts[1] == 3 && starts[2] == 3 && starts[3] == ABSENT);
  starts[1] = 2;
  vialbluff_check(file, sizeof file, 0, starts, out);
  assert(is(out, 0, 0, 0, 0));
  file[strlen("plan=2\nres=1\ncap=")] = '1';
  vialbluff_read(file, sizeof file, out);
  assert(is(out, 11, 5, 0, 0));
  vialbluff_best(file, sizeof file, 3, starts, best);
  assert(is_best(best, 11, 5, 0, 0, 0) && starts[0] == 0 && starts[1] == 2 && starts[2] == 3 && starts[3] == ABSENT);
}

int main(void) {
  const uint8_t *file = (const uint8_t *)PLAN;
  const size_t length = sizeof PLAN - 1;
  uint64_t out[5] = {[4] = GUARD}, best[6] = {[5] = GUARD};

  vialbluff_read(file, length, out);
  assert(is(out, 0, 5, 9, 2));

  uint8_t text[BYTES];
  memset(text, 7, sizeof text);
  vialbluff_write(file, length, 0, text, sizeof text, out);
  assert(is(out, 0, sizeof VARIANT_0 - 1, 0, 0));
  assert(memcmp(text, VARIANT_0, sizeof VARIANT_0 - 1) == 0 && text[sizeof VARIANT_0 - 1] == 7);
  vialbluff_write(file, length, 2, text, sizeof text, out);
  assert(is(out, 9, 0, 0, 0));

  uint32_t starts[VIALBLUFF_PLACES];
  vialbluff_best(file, length, 3, starts, best);
  assert(is_best(best, 0, 0, 10, 3, 1));
  assert(starts[0] == 0 && starts[1] == ABSENT && starts[2] == ABSENT && starts[3] == 4 && starts[4] == 4);
  vialbluff_check(file, length, 0, starts, out);
  assert(is(out, 0, 1, 0, 0));
  starts[4] = 3;
  vialbluff_check(file, length, 0, starts, out);
  assert(is(out, 0, 0, 0, 0));

  vialbluff_best(file, length, 2, starts, best);
  assert(is_best(best, 7, 0, 0, 0, 0) && starts[0] == 0 && starts[1] == ABSENT && starts[4] == 3);

  uint32_t area[CELLS];
  memset(area, 7, sizeof area);
  const uint32_t untouched = area[0];
  vialbluff_list(file, length, 3, area, 17, out);
  assert(is(out, 8, 18, 0, 0) && area[0] == untouched);
  vialbluff_list(file, length, 3, area, CELLS, out);
  assert(is(out, 0, 3, 0, 0) && memcmp(area, ROWS, sizeof ROWS) == 0 && area[18] == untouched);
  call_arms();
  return 0;
}
