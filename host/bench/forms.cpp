// What kind 5's named form costs: the search for a position and for a rank in C++, in the shapes that the engine's source has or could have, each beside the
// yardstick on the three pictures. Built and run by host/bench/forms.
#include <algorithm>
#include <chrono>
#include <cstdint>
#include <cstdio>
#include <cstdlib>
#include <cstring>
#include <dlfcn.h>
#include <random>
#include <vector>

typedef uint8_t u8;
typedef uint32_t u32;
typedef uint64_t u64;

extern "C" u64 ra_opened_rank(const u8 *, size_t, u32);
extern "C" u64 ra_opened_position(const u8 *, size_t, u32);

static const u32 CELLS = 1u << 24, STEP = 16, HEADER = 52;
static const u64 NOWHERE = ~u64(0), EMPTY = u64(255) << 32, BEYOND = u64(8) << 32;

static u32 number(const u8 *at) {
  u32 x;
  memcpy(&x, at, 4);
  return x;
}

// The engine's language hands a slice on as the address of such a pair.
struct Slice { const u8 *bytes; size_t length; };
struct Levels { const u32 *sizes; u32 start; size_t step; };
struct Pair { u32 cells, empty; };

static Pair pair_at(const u8 *page, size_t i) { return {number(page + 8 * i), number(page + 8 * i + 4)}; }
static u32 less(u32 x, u32 y) { return y < x ? x - y : 0; }
template <bool by_rank> static u32 count(Pair x) { return by_rank ? less(x.cells, x.empty) : x.cells; }

// The entries of a page before the first that exceeds p: by a walk that ends there, or, since they rise, by counting those that do not exceed it. A walk
// is right over any bytes, and so clips a difference at 0; counting is for accepted files, and lets it wrap.
template <bool by_rank, bool counted> static size_t before(const u8 *page, size_t n, u32 p) {
  size_t k = 0;
  if (counted)
    for (size_t i = 0; i < n; i++) k += number(page + 8 * i) - (by_rank ? number(page + 8 * i + 4) : 0) <= p;
  else
    while (k < n && count<by_rank>(pair_at(page, k)) <= p) k++;
  return k;
}

// Where a search stands: how many levels are below, their first entry, the entry above, the empty cells before it, and what is left of the number.
struct Stand { size_t level, from, entry; u64 empty; u32 rest; };

// One page: true where the search goes on below it, else its answer.
template <bool by_rank, bool counted> static bool page(const u8 *file, const Levels &l, Stand &s, u64 &answer) {
  const size_t size = l.sizes[s.level - 1], first = s.entry * l.step;
  answer = NOWHERE;
  if (size <= first) return false;
  const size_t left = l.step < size - first ? l.step : size - first;
  const u8 *at = file + l.start + 8 * (s.from + first);
  const size_t k = before<by_rank, counted>(at, left, s.rest);
  if (left <= k) return false;
  const Pair c = k ? pair_at(at, k - 1) : Pair{0, 0};
  s.rest -= count<by_rank>(c), s.empty += c.empty;
  if (--s.level) {
    s.from += size, s.entry = first + k;
    return true;
  }
  const u32 own = less(pair_at(at, k).empty, c.empty);
  answer = by_rank || own <= s.rest ? 2 * (s.empty + own) + 1 : 2 * (s.empty + s.rest);
  return false;
}

// The named form: the page below is a call, to which the slice goes through memory, as the engine's language hands it on.
template <bool by_rank, bool counted>
__attribute__((noinline)) static u64 descend(const Slice *file, const u32 *sizes, u32 start, size_t step, size_t level, size_t from, size_t entry, u64 empty, u32 rest) {
  const Slice mine = *file;
  Stand s = {level, from, entry, empty, rest};
  u64 answer;
  if (!page<by_rank, counted>(mine.bytes, {sizes, start, step}, s, answer)) return answer;
  return descend<by_rank, counted>(&mine, sizes, start, step, s.level, s.from, s.entry, s.empty, s.rest);
}

template <bool by_rank, bool counted, bool calls> static u64 search(const u8 *file, size_t length, u32 x) {
  u32 sizes[24] = {number(file + 32)};
  const u32 step = file[3], start = number(file + 36);
  size_t levels = 1, entries = sizes[0];
  for (u32 size = sizes[0]; step < size; entries += size) size = sizes[levels++] = (size + step - 1) / step;
  if (length < start + 8 * entries) return NOWHERE;
  const Slice slice = {file, length};
  if (calls) return descend<by_rank, counted>(&slice, sizes, start, step, levels, 0, 0, 0, x);
  Stand s = {levels, 0, 0, 0, x};
  u64 answer;
  while (page<by_rank, counted>(file, {sizes, start, step}, s, answer));
  return answer;
}

// ---------------------------------------------------------------- the opened lookups

template <bool counted, bool calls> static u64 rank(const u8 *file, size_t length, u32 p) {
  const u64 found = search<false, counted, calls>(file, length, p);
  // An empty cell has the number of stored cells before it: N after the last run.
  if (found == NOWHERE) return EMPTY + number(file + 24);
  return (found % 2 ? 0 : EMPTY) + (p - found / 2);
}

template <bool counted, bool calls> static u64 position(const u8 *file, size_t length, u32 r) {
  const u64 found = search<true, counted, calls>(file, length, r);
  return found == NOWHERE ? BEYOND : r + found / 2;
}

typedef u64 (*Lookup)(const u8 *, size_t, u32);
typedef u32 (*Make)(u32, u32, u32, u32, const u32 *, size_t, u32, const u32 *, size_t, u8 *, size_t);
struct Form { const char *name; Lookup rank, position; };

// ---------------------------------------------------------------- the pictures of the bench

static std::vector<u32> picture(int which) {
  std::mt19937 g(which + 1);
  std::vector<u32> words(CELLS, 0);
  for (u64 p = 0; p < CELLS;) {
    p += 1 + g() % (which == 0 ? 4000 : which == 1 ? 6 : 400);
    for (u32 run = which == 0 ? 3 + g() % 38 : which == 1 ? 1 + g() % 6 : 1; run > 0 && p < CELLS; run--) words[p++] = 1 + g() % 200;
  }
  return words;
}

// Nanoseconds a lookup, the best of many rounds in which the forms take turns; ends the program where two forms answer differently.
static std::vector<double> timed(const std::vector<Form> &forms, Lookup Form::*lookup, const std::vector<u8> &file, const std::vector<u32> &at) {
  std::vector<double> best(forms.size(), 1e9);
  std::vector<u64> sums(forms.size());
  for (int round = 0; round < 40; round++)
    for (size_t i = 0; i < forms.size(); i++) {
      const auto begin = std::chrono::steady_clock::now();
      u64 sum = 0;
      for (u32 x : at) sum = sum * 31 + (forms[i].*lookup)(file.data(), file.size(), x);
      const std::chrono::duration<double, std::nano> took = std::chrono::steady_clock::now() - begin;
      best[i] = std::min(best[i], took.count() / at.size());
      sums[i] = sum;
    }
  for (size_t i = 1; i < forms.size(); i++)
    if (sums[i] != sums[0]) printf("%s answers differently\n", forms[i].name), exit(1);
  return best;
}

int main(int, char **arguments) {
  void *yardstick = dlopen(arguments[1], RTLD_NOW | RTLD_LOCAL);
  if (!yardstick) return printf("%s\n", dlerror()), 1;
  const Make make = Make(dlsym(yardstick, "ra_make"));
  const std::vector<Form> forms = {
      {"yardstick", Lookup(dlsym(yardstick, "ra_opened_rank")), Lookup(dlsym(yardstick, "ra_opened_position"))},
      {"engine", ra_opened_rank, ra_opened_position},
      {"calls, walk", rank<false, true>, position<false, true>},
      {"calls, counted", rank<true, true>, position<true, true>},
      {"loop, walk", rank<false, false>, position<false, false>},
      {"loop, counted", rank<true, false>, position<true, false>}};
  const char *names[] = {"sea", "harbour", "speckle"};
  for (int which = 0; which < 3; which++) {
    const std::vector<u32> words = picture(which);
    std::vector<u32> stored, places, ranks;
    for (u32 p = 0; p < CELLS; p++)
      if (words[p]) stored.push_back(p);
    std::vector<u8> file(HEADER + 16 * stored.size() + 1000);
    const u32 extents[4] = {CELLS, 1, 1, 1};
    if (make(5, 0, STEP, 1, extents, 4, 0, words.data(), words.size(), file.data(), file.size())) return printf("no file\n"), 1;
    file.resize(number(&file[48]));
    std::mt19937 g(99);
    for (u32 i = 0; i < 100000; i++) places.push_back(i % 2 ? stored[g() % stored.size()] : g() % CELLS), ranks.push_back(g() % stored.size());
    const std::vector<double> r = timed(forms, &Form::rank, file, places), p = timed(forms, &Form::position, file, ranks);
    for (size_t i = 0; i < forms.size(); i++)
      printf("%-8s %-15s rank %6.1f ns (%.2f)  position %6.1f ns (%.2f)\n", names[which], forms[i].name, r[i], r[i] / r[0], p[i], p[i] / p[0]);
  }
}
