// The search for the active schedules of a plan of edition 1, variant by variant: recursive, sets of activities as
// masks, arrays stored to and restored. A schedule that a lower variant has is left out, and a variant that is a lower
// one again is not searched. Rows are sorted as a whole once all are written.
#include "peer.h"

#include "shared.h"

namespace {

struct Plan : Term {
  uint32_t activities = 0;
  uint32_t resource[kActivities];
  uint32_t duration[kActivities];
  // The activities on each resource.
  uint32_t on[kResources] = {};
};

Plan read(const uint8_t *file) {
  Plan plan;
  Reader reader(file);
  reader.number();
  reader.number();
  plan.activities = reader.number();
  for (uint32_t i = 0; i < plan.activities; i++) {
    plan.resource[i] = reader.number();
    plan.duration[i] = reader.number();
    plan.on[plan.resource[i]] |= 1u << i;
  }
  read_term(reader, plan);
  return plan;
}

class Search {
 public:
  Search(const Plan &plan, uint64_t cap) : plan_(plan), cap_(cap) {}

  // Every variant, or false once there are more schedules than the cap. A row for each goes to `rows`, if there is one.
  bool run(uint32_t *rows) {
    rows_ = rows;
    count_ = 0;
    makespan_ = kNever;
    orders_.clear(plan_.variants[0]);
    for (variant_ = 0; variant_ < plan_.variants[0]; variant_++) {
      memset(before_, 0, sizeof before_);
      present_ = choose(plan_, 0, variant_, before_);
      if (!is_new()) continue;
      memset(ends_, 0, sizeof ends_);
      memset(free_, 0, sizeof free_);
      if (!(lowers_ == 0 ? branch<false>(present_, 0) : branch<true>(present_, 0))) return false;
    }
    return true;
  }

  uint64_t count() const { return count_; }
  uint64_t shortest() const { return shortest_; }
  uint64_t makespan() const { return makespan_; }
  uint64_t best_variant() const { return best_variant_; }

  void best_starts(uint32_t *starts) const {
    for (uint32_t i = 0; i < kActivities; i++) starts[i] = start(best_ends_, i);
  }

 private:
  // A lower variant with the same activities, and those that have other predecessors in it.
  struct Lower {
    const Order *order;
    uint32_t other;
  };

  // Collects the lower variants with the same activities; false where one of them has the same predecessors too.
  bool is_new() {
    const Order *&last = orders_.last(present_);
    lowers_ = 0;
    for (const Order *order = last; order != nullptr; order = order->lower) {
      uint32_t other = difference(before_, order->before);
      if (other == 0) return false;
      lower_[lowers_++] = {order, other};
    }
    last = orders_.add(present_, before_, last);
    return true;
  }

  // Does i fit on its resource from a tick on and sooner than it stands? Each of the others is in the way once at most.
  bool fits_sooner(uint32_t i, uint32_t tick) const {
    uint32_t length = plan_.duration[i];
    uint32_t others = plan_.on[plan_.resource[i]] & present_ & ~(1u << i);
    while (tick + length < ends_[i]) {
      uint32_t set = others, k;
      do {
        if (set == 0) return true;
        k = __builtin_ctz(set);
        set &= set - 1;
      } while (ends_[k] <= tick || ends_[k] >= tick + length + plan_.duration[k]);
      tick = ends_[k];
      others &= ~(1u << k);
    }
    return false;
  }

  // Is the schedule active for a lower variant? It is so at every activity with the same predecessors.
  bool has(const Lower &lower) const {
    for (uint32_t set = lower.other; set != 0; set &= set - 1) {
      uint32_t i = __builtin_ctz(set);
      uint32_t start = ends_[i] - plan_.duration[i];
      uint32_t ready = 0;
      for (uint32_t done = lower.order->before[i]; done != 0; done &= done - 1) {
        uint32_t end = ends_[__builtin_ctz(done)];
        if (end > start) return false;
        ready = std::max(ready, end);
      }
      if (fits_sooner(i, ready)) return false;
    }
    return true;
  }

  // Does a lower variant have the schedule? Inlined, this would slow the search down.
  [[gnu::noinline]] bool is_shared() const {
    for (uint32_t n = 0; n < lowers_; n++) {
      if (has(lower_[n])) return true;
    }
    return false;
  }

  // An absent activity has no end.
  uint32_t start(const uint32_t *ends, uint32_t i) const {
    return i < plan_.activities && ends[i] != 0 ? ends[i] - plan_.duration[i] : kMark;
  }

  // In one variant the starts of two schedules compare as their ends do.
  bool ends_before() const {
    return std::lexicographical_compare(ends_, ends_ + kActivities, best_ends_, best_ends_ + kActivities);
  }

  // A schedule is found. `kHasLower`: there are lower variants with the same activities.
  template <bool kHasLower>
  bool finished(uint32_t latest) {
    if (kHasLower && is_shared()) return true;
    if (count_ == cap_) return false;
    count_++;
    if (latest <= makespan_) shortest_ = latest < makespan_ ? 1 : shortest_ + 1;
    if (latest < makespan_ || (latest == makespan_ && variant_ == best_variant_ && ends_before())) {
      makespan_ = latest;
      best_variant_ = variant_;
      memcpy(best_ends_, ends_, sizeof ends_);
    }
    if (rows_ != nullptr) {
      *rows_++ = variant_;
      for (uint32_t i = 0; i < plan_.activities; i++) *rows_++ = start(ends_, i);
    }
    return true;
  }

  // Each way to go on from the frozen activities, `left` not being frozen; `latest` is the latest end so far.
  template <bool kHasLower>
  bool branch(uint32_t left, uint32_t latest) {
    if (left == 0) return finished<kHasLower>(latest);
    uint32_t earliest[kActivities];
    uint32_t open = 0;
    uint32_t key = kNever;
    for (uint32_t set = left; set != 0; set &= set - 1) {
      uint32_t i = __builtin_ctz(set);
      if ((before_[i] & left) != 0) continue;
      uint32_t start = free_[plan_.resource[i]];
      for (uint32_t done = before_[i]; done != 0; done &= done - 1) start = std::max(start, ends_[__builtin_ctz(done)]);
      earliest[i] = start;
      open |= 1u << i;
      key = std::min(key, (start + plan_.duration[i]) * kResources + plan_.resource[i]);
    }
    uint32_t resource = key % kResources;
    uint32_t tick = key / kResources;
    uint32_t free = free_[resource];
    for (uint32_t set = open; set != 0; set &= set - 1) {
      uint32_t i = __builtin_ctz(set);
      if (plan_.resource[i] != resource || earliest[i] >= tick) continue;
      uint32_t end = earliest[i] + plan_.duration[i];
      ends_[i] = end;
      free_[resource] = end;
      if (!branch<kHasLower>(left & ~(1u << i), std::max(latest, end))) return false;
    }
    free_[resource] = free;
    return true;
  }

  const Plan &plan_;
  const uint64_t cap_;
  uint32_t variant_ = 0;
  uint32_t present_ = 0;
  uint32_t before_[kActivities];
  uint32_t ends_[kActivities];
  uint32_t free_[kResources];
  uint64_t count_ = 0;
  uint64_t shortest_ = 0;
  uint32_t makespan_ = kNever;
  uint32_t best_variant_ = 0;
  uint32_t best_ends_[kActivities];
  uint32_t *rows_ = nullptr;
  uint32_t lowers_ = 0;
  Lower lower_[kVariants];
  Orders orders_;
};

}  // namespace

void peer_best(const uint8_t *file, size_t, uint32_t cap, uint32_t *starts, uint64_t *out) {
  Plan plan = read(file);
  Search search(plan, cap);
  if (!search.run(nullptr)) return answer(out, 7, 0, 0, 0, 0);
  search.best_starts(starts);
  answer(out, 0, search.best_variant(), search.makespan(), search.count(), search.shortest());
}

void peer_list(const uint8_t *file, size_t, uint32_t cap, uint32_t *area, size_t area_len, uint64_t *out) {
  Plan plan = read(file);
  Search search(plan, cap);
  if (!search.run(nullptr)) return answer(out, 7, 0, 0, 0);
  uint64_t cells = search.count() * (plan.activities + 1);
  if (area_len < cells) return answer(out, 8, cells, 0, 0);
  search.run(area);
  sorts(std::make_index_sequence<kActivities>())[plan.activities - 1](area, search.count());
  answer(out, 0, search.count(), 0, 0);
}
