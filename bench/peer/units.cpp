// The scan for the active schedules of a plan of edition 2, variant by variant: the planner's own search as plain C++,
// recursive, sets of activities as masks. In each component of activities joined by common resources they are frozen by
// rising start, and number where starts are equal, so that each schedule is found once. A schedule that a lower variant
// has is left out, and a variant that is a lower one again is not searched. Rows are sorted as a whole once all are
// written.
#include "peer.h"

#include "shared.h"

namespace {

// Units of each resource, a byte each, eight in a word.
struct Units {
  uint64_t words[2] = {};

  uint32_t of(uint32_t r) const { return words[r / 8] >> 8 * (r % 8) & 255; }
  void set(uint32_t r, uint64_t count) { words[r / 8] |= count << 8 * (r % 8); }

  void add(const Units &other) {
    words[0] += other.words[0];
    words[1] += other.words[1];
  }

  // At most so many of each? A byte of the difference keeps its upper bit if so.
  bool within(const Units &most) const {
    constexpr uint64_t kUpper = 0x8080808080808080;
    return (((most.words[0] | kUpper) - words[0]) & ((most.words[1] | kUpper) - words[1]) & kUpper) == kUpper;
  }
};

struct Plan : Term {
  uint32_t activities = 0;
  uint32_t duration[kActivities];
  Units capacity;
  Units units[kActivities];
  // The activities that use a common resource with each, and those that can never run together with it.
  uint32_t shares[kActivities] = {};
  uint32_t clashes[kActivities] = {};
};

void compare(Plan &plan, uint32_t i, uint32_t j) {
  for (uint32_t r = 0; r < kResources; r++) {
    uint32_t a = plan.units[i].of(r), b = plan.units[j].of(r);
    if (i == j || a == 0 || b == 0) continue;
    plan.shares[i] |= 1u << j;
    if (a + b > plan.capacity.of(r)) plan.clashes[i] |= 1u << j;
  }
}

Plan read(const uint8_t *file) {
  Plan plan;
  Reader reader(file);
  reader.number();
  uint32_t resources = reader.number();
  for (uint32_t r = 0; r < resources; r++) plan.capacity.set(r, reader.number());
  plan.activities = reader.number();
  for (uint32_t i = 0; i < plan.activities; i++) {
    plan.duration[i] = reader.number();
    for (uint32_t r = 0; r < resources; r++) plan.units[i].set(r, reader.number());
  }
  for (uint32_t i = 0; i < plan.activities; i++) {
    for (uint32_t j = 0; j < plan.activities; j++) compare(plan, i, j);
  }
  read_term(reader, plan);
  return plan;
}

class Search {
 public:
  Search(const Plan &plan, uint64_t cap) : plan_(plan), cap_(cap) {}

  // Every variant, or false once there are more schedules than the cap. A row for each goes to `rows`, if there is one.
  bool run(uint32_t *rows) {
    rows_ = rows;
    count_ = 0;
    makespan_ = kNever;
    orders_.clear(plan_.variants[0]);
    for (variant_ = 0; variant_ < plan_.variants[0]; variant_++) {
      memset(before_, 0, sizeof before_);
      present_ = choose(plan_, 0, variant_, before_);
      if (!is_new()) continue;
      prepare();
      Line line = {0, 0, present_, present_, 0, 0, 0};
      if (!(lowers_ == 0 ? descend<false>(line, 0) : descend<true>(line, 0))) return false;
    }
    return true;
  }

  uint64_t count() const { return count_; }
  uint64_t shortest() const { return shortest_; }
  uint64_t makespan() const { return makespan_; }
  uint64_t best_variant() const { return best_variant_; }
  void best_starts(uint32_t *starts) const { memcpy(starts, best_starts_, sizeof best_starts_); }

 private:
  // Where the scan stands: its tick; the activities placed, those not frozen and those of T; the components that are
  // contested there, each by its first activity; those placed that a frozen one has passed by start and number; and
  // those frozen that end behind the last start of their component.
  struct Line {
    uint32_t tick, placed, left, term, due, passed, live;
  };

  // A lower variant with the same activities, and those that have other predecessors in it.
  struct Lower {
    const Order *order;
    uint32_t other;
  };

  // Collects the lower variants with the same activities; false where one of them has the same predecessors too.
  bool is_new() {
    const Order *&last = orders_.last(present_);
    lowers_ = 0;
    for (const Order *order = last; order != nullptr; order = order->lower) {
      uint32_t other = difference(before_, order->before);
      if (other == 0) return false;
      lower_[lowers_++] = {order, other};
    }
    last = orders_.add(present_, before_, last);
    return true;
  }

  // The activities joined to i by common resources.
  uint32_t component(uint32_t i) const {
    uint32_t joined = 1u << i, reached = 0;
    while (joined != reached) {
      reached = joined;
      for (uint32_t set = reached; set != 0; set &= set - 1) joined |= plan_.shares[__builtin_ctz(set)] & present_;
    }
    return joined;
  }

  // The components of a variant.
  void prepare() {
    memset(starts_, 0xff, sizeof starts_);
    for (uint32_t set = present_; set != 0; set &= set - 1) {
      uint32_t i = __builtin_ctz(set);
      component_[i] = component(i);
      place_[i] = component_[i] & -component_[i];
    }
  }

  // The activities of a set that run on a tick.
  uint32_t running(uint32_t set, uint32_t tick) const {
    uint32_t found = 0;
    for (; set != 0; set &= set - 1) {
      uint32_t k = __builtin_ctz(set);
      found |= uint32_t{starts_[k] <= tick && tick < ends_[k]} << k;
    }
    return found;
  }

  // Is there room for i beside those that run?
  bool has_room(uint32_t i, uint32_t running) const {
    if ((running & plan_.clashes[i]) != 0) return false;
    if ((running & (running - 1)) == 0) return true;
    Units held = plan_.units[i];
    for (; running != 0; running &= running - 1) held.add(plan_.units[__builtin_ctz(running)]);
    return held.within(plan_.capacity);
  }

  // The activities of a set that end behind a tick.
  uint32_t ending_behind(uint32_t set, uint32_t tick) const {
    uint32_t found = 0;
    for (; set != 0; set &= set - 1) {
      uint32_t k = __builtin_ctz(set);
      found |= uint32_t{tick < ends_[k]} << k;
    }
    return found;
  }

  uint32_t last_end(uint32_t set) const {
    uint32_t last = 0;
    for (; set != 0; set &= set - 1) last = std::max(last, ends_[__builtin_ctz(set)]);
    return last;
  }

  // The first end of a set past a tick.
  uint32_t first_end(uint32_t set, uint32_t tick) const {
    uint32_t first = kNever;
    for (; set != 0; set &= set - 1) {
      uint32_t end = ends_[__builtin_ctz(set)];
      if (end > tick) first = std::min(first, end);
    }
    return first;
  }

  // The earliest fit of i from a tick on, beside a set that stands: where there is no room on a tick, i starts behind
  // it, at an end.
  uint32_t earliest_fit(uint32_t i, uint32_t tick, uint32_t set) const {
    set &= plan_.shares[i];
    for (;;) {
      uint32_t blocked = has_room(i, running(set, tick)) ? kNever : tick;
      for (uint32_t rest = set; rest != 0 && blocked == kNever; rest &= rest - 1) {
        uint32_t start = starts_[__builtin_ctz(rest)];
        if (tick < start && start < tick + plan_.duration[i] && !has_room(i, running(set, start))) blocked = start;
      }
      if (blocked == kNever) return tick;
      tick = first_end(set, blocked);
    }
  }

  // The earliest fit of i from a tick on, where it may only lack room from `now` on and nothing that stands starts
  // later than that: one tick tells. `live` has all that runs then.
  uint32_t fit_beside(uint32_t i, uint32_t tick, uint32_t now, uint32_t live) const {
    uint32_t beside = ending_behind(live & plan_.shares[i], now);
    while (!has_room(i, beside)) {
      uint32_t clash = beside & plan_.clashes[i];
      tick = clash != 0 ? last_end(clash) : first_end(beside, 0);
      beside = ending_behind(beside, tick);
    }
    return tick;
  }

  // Is the schedule active for a lower variant? It is so at every activity with the same predecessors.
  bool has(const Lower &lower) const {
    for (uint32_t set = lower.other; set != 0; set &= set - 1) {
      uint32_t i = __builtin_ctz(set);
      uint32_t ready = 0;
      for (uint32_t done = lower.order->before[i]; done != 0; done &= done - 1) {
        ready = std::max(ready, ends_[__builtin_ctz(done)]);
      }
      if (ready > starts_[i] || earliest_fit(i, ready, present_ & ~(1u << i)) < starts_[i]) return false;
    }
    return true;
  }

  // Does a lower variant have the schedule? Inlined, this would slow the search down.
  [[gnu::noinline]] bool is_shared() const {
    for (uint32_t n = 0; n < lowers_; n++) {
      if (has(lower_[n])) return true;
    }
    return false;
  }

  bool starts_before() const {
    return std::lexicographical_compare(starts_, starts_ + kActivities, best_starts_, best_starts_ + kActivities);
  }

  // A schedule is found. `kHasLower`: there are lower variants with the same activities.
  template <bool kHasLower>
  bool finished(uint32_t latest) {
    if (kHasLower && is_shared()) return true;
    if (count_ == cap_) return false;
    count_++;
    if (latest <= makespan_) shortest_ = latest < makespan_ ? 1 : shortest_ + 1;
    if (latest < makespan_ || (latest == makespan_ && variant_ == best_variant_ && starts_before())) {
      makespan_ = latest;
      best_variant_ = variant_;
      memcpy(best_starts_, starts_, sizeof starts_);
    }
    if (rows_ != nullptr) {
      *rows_++ = variant_;
      memcpy(rows_, starts_, plan_.activities * sizeof *starts_);
      rows_ += plan_.activities;
    }
    return true;
  }

  // The earliest fit of i, which fitted at a tick, once j is frozen.
  uint32_t next_fit(uint32_t i, uint32_t tick, uint32_t j, uint32_t live) const {
    if (tick >= ends_[j] || tick + plan_.duration[i] <= starts_[j]) return tick;
    return fit_beside(i, tick, std::max(tick, starts_[j]), live);
  }

  // The line goes to the first of a tick and the ends of what is placed and not frozen.
  void stop(Line &line, uint32_t first) const {
    line.tick = first;
    for (uint32_t set = line.placed & line.left; set != 0; set &= set - 1) {
      uint32_t i = __builtin_ctz(set);
      uint32_t end = fit_[i] + plan_.duration[i];
      if (end < line.tick) {
        line.tick = end;
        line.due = place_[i];
      } else if (end == line.tick) {
        line.due |= place_[i];
      }
    }
  }

  // T loses what has ended, what waits and has room is attached, and the line moves. Where nothing waits it goes to the
  // next end of what is not frozen.
  [[gnu::always_inline]] void move_on(Line &line) {
    uint32_t first = kNever;
    uint32_t waiting = line.left & ~line.placed;
    if (waiting != 0) {
      for (uint32_t set = line.term & ~line.left; set != 0; set &= set - 1) {
        uint32_t end = ends_[__builtin_ctz(set)];
        if (end <= line.tick) line.term &= ~(set & -set);
        else first = std::min(first, end);
      }
      for (uint32_t set = waiting; set != 0; set &= set - 1) {
        uint32_t i = __builtin_ctz(set);
        if ((before_[i] & line.term) != 0 || !has_room(i, line.term & ~line.left & plan_.shares[i])) continue;
        fit_[i] = line.tick;
        line.placed |= 1u << i;
      }
    }
    stop(line, first);
  }

  // j is frozen where it stands, and the others placed in its component are shifted.
  [[gnu::always_inline]] void select(Line &line, uint32_t j) {
    uint32_t joined = component_[j];
    line.left &= ~(1u << j);
    line.due &= ~place_[j];
    starts_[j] = fit_[j];
    ends_[j] = fit_[j] + plan_.duration[j];
    uint32_t live = ending_behind(line.live & joined, starts_[j]) | 1u << j;
    line.live = (line.live & ~joined) | live;
    line.passed &= ~joined;
    for (uint32_t set = line.placed & line.left & joined; set != 0; set &= set - 1) {
      uint32_t k = __builtin_ctz(set);
      fit_[k] = next_fit(k, fit_[k], j, live);
      bool ahead = fit_[k] < starts_[j] || (fit_[k] == starts_[j] && k < j);
      line.passed |= uint32_t{ahead} << k;
    }
  }

  // Every way to go on. The earliest fits are put back before the next way only, since whoever calls puts back its own.
  template <bool kHasLower>
  bool descend(const Line &from, uint32_t latest) {
    Line line = from;
    for (;;) {
      if (line.left == 0) return finished<kHasLower>(latest);
      if (line.due == 0) {
        move_on(line);
        continue;
      }
      uint32_t here = component_[__builtin_ctz(line.due)] & line.placed & line.left;
      if ((here & (here - 1)) != 0 || (here & line.passed) != 0) return branch<kHasLower>(line, latest, here);
      select(line, __builtin_ctz(here));
      latest = std::max(latest, line.tick);
    }
  }

  template <bool kHasLower>
  bool branch(const Line &line, uint32_t latest, uint32_t here) {
    uint32_t choices = 0;
    for (uint32_t set = here & ~line.passed; set != 0; set &= set - 1) {
      uint32_t j = __builtin_ctz(set);
      choices |= uint32_t{fit_[j] < line.tick} << j;
    }
    uint32_t fit[kActivities];
    if ((choices & (choices - 1)) != 0) memcpy(fit, fit_, sizeof fit);
    while (choices != 0) {
      uint32_t j = __builtin_ctz(choices);
      Line next = line;
      select(next, j);
      if (!descend<kHasLower>(next, std::max(latest, ends_[j]))) return false;
      choices &= choices - 1;
      if (choices != 0) memcpy(fit_, fit, sizeof fit);
    }
    return true;
  }

  const Plan &plan_;
  const uint64_t cap_;
  uint32_t variant_ = 0;
  uint32_t present_ = 0;
  // The predecessors of each activity.
  uint32_t before_[kActivities];
  // The component of each activity, and the first activity of it.
  uint32_t component_[kActivities];
  uint32_t place_[kActivities];
  uint32_t starts_[kActivities];
  uint32_t ends_[kActivities];
  // Where each one placed and not frozen starts.
  uint32_t fit_[kActivities];
  uint64_t count_ = 0;
  uint64_t shortest_ = 0;
  uint32_t makespan_ = kNever;
  uint32_t best_variant_ = 0;
  uint32_t best_starts_[kActivities];
  uint32_t *rows_ = nullptr;
  uint32_t lowers_ = 0;
  Lower lower_[kVariants];
  Orders orders_;
};

}  // namespace

void units_best(const uint8_t *file, size_t, uint32_t cap, uint32_t *starts, uint64_t *out) {
  Plan plan = read(file);
  Search search(plan, cap);
  if (!search.run(nullptr)) return answer(out, 7, 0, 0, 0, 0);
  search.best_starts(starts);
  answer(out, 0, search.best_variant(), search.makespan(), search.count(), search.shortest());
}

void units_list(const uint8_t *file, size_t, uint32_t cap, uint32_t *area, size_t area_len, uint64_t *out) {
  Plan plan = read(file);
  Search search(plan, cap);
  if (!search.run(nullptr)) return answer(out, 7, 0, 0, 0);
  uint64_t cells = search.count() * (plan.activities + 1);
  if (area_len < cells) return answer(out, 8, cells, 0, 0);
  search.run(area);
  sorts(std::make_index_sequence<kActivities>())[plan.activities - 1](area, search.count());
  answer(out, 0, search.count(), 0, 0);
}
