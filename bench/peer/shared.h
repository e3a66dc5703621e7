// What both peers have: terms and their variants, the variants that were searched, and sorted rows.
#ifndef SHARED_H
#define SHARED_H

#include <stdint.h>
#include <string.h>

#include <algorithm>
#include <array>
#include <utility>

namespace {

constexpr int kActivities = 24;
constexpr int kResources = 16;
constexpr int kNodes = 64;
constexpr int kVariants = 4096;
constexpr uint32_t kMark = 4294967295;
constexpr uint32_t kNever = UINT32_MAX;

struct Term {
  uint32_t nodes = 0;
  uint8_t letter[kNodes];
  uint32_t number[kNodes];
  // Of the term at each node: its variants, and the node behind it.
  uint32_t variants[kNodes];
  uint32_t behind[kNodes];
};

class Reader {
 public:
  explicit Reader(const uint8_t *file) : at_(file) {}

  // The next number of the file.
  uint32_t number() {
    while (*at_ < '0' || *at_ > '9') at_++;
    uint32_t n = 0;
    for (; '0' <= *at_ && *at_ <= '9'; at_++) n = 10 * n + (*at_ - '0');
    return n;
  }

  // The letter behind `node=`, on the line that begins behind the last number.
  uint8_t letter() { return at_[6]; }

 private:
  const uint8_t *at_;
};

void count_variants(Term &term, uint32_t node) {
  uint32_t next = node + 1;
  uint32_t sum = 0, product = 1;
  if (term.letter[node] != 'a') {
    for (uint32_t child = 0; child < term.number[node]; child++) {
      count_variants(term, next);
      sum += term.variants[next];
      product *= term.variants[next];
      next = term.behind[next];
    }
  }
  term.variants[node] = term.letter[node] == 'x' ? sum : product;
  term.behind[node] = next;
}

void read_term(Reader &reader, Term &term) {
  term.nodes = reader.number();
  for (uint32_t n = 0; n < term.nodes; n++) {
    term.letter[n] = reader.letter();
    term.number[n] = reader.number();
  }
  count_variants(term, 0);
}

// The activities of a variant of the term at a node; the predecessors of each are added to `before`.
uint32_t choose(const Term &term, uint32_t node, uint32_t variant, uint32_t *before) {
  if (term.letter[node] == 'a') return 1u << term.number[node];
  uint32_t child = node + 1;
  if (term.letter[node] == 'x') {
    for (; variant >= term.variants[child]; child = term.behind[child]) variant -= term.variants[child];
    return choose(term, child, variant, before);
  }
  uint32_t all = 0;
  uint32_t later = term.variants[node];
  for (uint32_t n = 0; n < term.number[node]; n++, child = term.behind[child]) {
    later /= term.variants[child];
    uint32_t chosen = choose(term, child, variant / later % term.variants[child], before);
    if (term.letter[node] == 's') {
      for (uint32_t set = chosen; set != 0; set &= set - 1) before[__builtin_ctz(set)] |= all;
    }
    all |= chosen;
  }
  return all;
}

// A variant that was searched: its activities, the predecessors of each, and the last one before it with the same
// activities.
struct Order {
  uint32_t present;
  uint32_t before[kActivities];
  const Order *lower;
};

// The variants that were searched, found by their activities: a hash table with room for twice as many.
class Orders {
 public:
  void clear(uint32_t variants) {
    bits_ = 1;
    while (1u << bits_ < 2 * variants) bits_++;
    memset(last_, 0, sizeof *last_ << bits_);
    count_ = 0;
  }

  // The last one with these activities, or the place for it.
  const Order *&last(uint32_t present) {
    uint32_t at = present * 2654435769u >> (32 - bits_);
    while (last_[at] != nullptr && last_[at]->present != present) at = (at + 1) % (1u << bits_);
    return last_[at];
  }

  const Order *add(uint32_t present, const uint32_t *before, const Order *lower) {
    Order &order = orders_[count_++];
    order.present = present;
    memcpy(order.before, before, sizeof order.before);
    order.lower = lower;
    return &order;
  }

 private:
  uint32_t bits_;
  uint32_t count_;
  const Order *last_[2 * kVariants];
  Order orders_[kVariants];
};

// The activities that have other predecessors.
uint32_t difference(const uint32_t *before, const uint32_t *other) {
  uint32_t set = 0;
  for (uint32_t i = 0; i < kActivities; i++) set |= uint32_t{before[i] != other[i]} << i;
  return set;
}

// By the first cells that differ; `std::array` compares more slowly.
template <size_t W>
struct Row {
  uint32_t cells[W];

  bool operator<(const Row &other) const {
    for (size_t i = 0; i < W; i++) {
      if (cells[i] != other.cells[i]) return cells[i] < other.cells[i];
    }
    return false;
  }
};

template <size_t W>
void sort_rows(uint32_t *area, uint64_t count) {
  auto *rows = reinterpret_cast<Row<W> *>(area);
  std::sort(rows, rows + count);
}

// For each number of activities from 1 on, the sort of rows of one cell more.
template <size_t... N>
constexpr auto sorts(std::index_sequence<N...>) {
  return std::array{sort_rows<N + 2>...};
}

template <class... Numbers>
void answer(uint64_t *out, Numbers... numbers) {
  ((*out++ = numbers), ...);
}

}  // namespace

#endif
