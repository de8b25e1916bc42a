// The engine beside other stores of positions, of Debian's packages libroaring-dev and libsdsl-dev, on the yardstick's three pictures.
//   peers    prints lines of five fields with tabs between: texture, store, ns for the rank at a position, ns for the position of a rank,
//            bytes without the words. The rank of an empty cell is the number of stored cells before it, told apart from a stored cell's.
// Each store is asked the same; where an answer differs from the engine's the program ends with 1. The yardstick's bench.cpp is included for its pictures; -I names
// its folder.
#define main bench_main
#include "bench.cpp"
#undef main
#include "radar_archive.h"
#include <functional>
#include <roaring/roaring.h>
#include <sdsl/bit_vectors.hpp>

static const u32 EXTENTS[4] = {16, 1024, 1024, 1};
static const Setting TIMED[] = {{1, 0, 0}, {2, 0, 0}, {3, 2, 16}, {4, 1, 0}, {5, 0, 16}, {6, 1, 16}};
static const u32 NONE = 0xffffffff, EMPTY = 0x80000000;

// What is asked: positions, of which half are stored, and ranks.
struct Questions { vector<u32> positions, ranks; };

// A store: the rank at a position, for an empty cell EMPTY and the number of stored cells before it; the position of a rank; its bytes, and how many questions
// it is asked.
struct Store {
  string name;
  function<u32(u32)> rank, position;
  size_t bytes;
  size_t asked;
};

static void fail(const string &what) {
  fprintf(stderr, "peers: %s\n", what.c_str());
  exit(1);
}

static Questions questions(const vector<u32> &stored) {
  mt19937 g(5);
  Questions q;
  for (u32 i = 0; i < 1u << 16; i++) {
    q.positions.push_back(i % 2 ? stored[g() % stored.size()] : g() % CELLS);
    q.ranks.push_back(g() % u32(stored.size()));
  }
  return q;
}

// The best time for one question of several rounds over the first n, in ns; the sum of the answers is compared.
static double time_of(const function<u32(u32)> &ask, const vector<u32> &asked, size_t n, u64 want, const string &what) {
  double best = 1e99;
  for (int round = 0; round < 7; round++) {
    u64 sum = 0;
    const double start = now();
    for (size_t i = 0; i < n; i++) sum += ask(asked[i]);
    best = min(best, now() - start);
    if (sum != want) fail(what + " answers otherwise");
  }
  return best * 1e9 / double(n);
}

static void report(const char *texture, const Store &s, const Questions &q, const vector<u32> &stored) {
  u64 ranks = 0, positions = 0;
  for (size_t i = 0; i < s.asked; i++) {
    const auto at = lower_bound(stored.begin(), stored.end(), q.positions[i]);
    ranks += u32(at - stored.begin()) + (at != stored.end() && *at == q.positions[i] ? 0 : EMPTY);
    positions += stored[q.ranks[i]];
  }
  const double rank = time_of(s.rank, q.positions, s.asked, ranks, s.name + ", rank");
  const double position = time_of(s.position, q.ranks, s.asked, positions, s.name + ", position");
  printf("%s\t%s\t%.1f\t%.1f\t%zu\n", texture, s.name.c_str(), rank, position, s.bytes);
}

// The engine's file of the words in a setting, through the lookups of an opened file.
static Store engine(Setting s, const vector<u32> &words, size_t stored, vector<u8> &file) {
  file.resize(size_t(176) << 20);
  if (ra_make(s.kind, s.width, s.step, 3, EXTENTS, 4, 0, words.data(), words.size(), file.data(), file.size())) fail("make");
  file.resize(field(file.data(), 48));
  if (ra_check(file.data(), file.size())) fail("check");
  const u8 *f = file.data();
  const size_t n = file.size();
  const auto rank = [f, n](u32 p) { const u64 a = ra_opened_rank(f, n, p); return RA_VALUE(a) + (RA_CODE(a) == 0 ? 0 : EMPTY); };
  const auto position = [f, n](u32 r) { return u32(RA_VALUE(ra_opened_position(f, n, r))); };
  return {"kind " + label(s), rank, position, n - 52 - 4 * stored, s.kind == 4 || s.kind == 6 ? size_t(64) : size_t(1) << 16};
}

static Store roaring(const roaring_bitmap_t *b) {
  const auto rank = [b](u32 p) { const u32 through = u32(roaring_bitmap_rank(b, p)); return roaring_bitmap_contains(b, p) ? through - 1 : through + EMPTY; };
  const auto position = [b](u32 r) { u32 p = NONE; return roaring_bitmap_select(b, r, &p) ? p : NONE; };
  return {"Roaring", rank, position, roaring_bitmap_portable_size_in_bytes(b), size_t(1) << 16};
}

template <class V, class R, class S> static Store succinct(const char *name, const V &v, const R &rank, const S &select) {
  // An sd_vector ends after its last one.
  const auto at = [&v, &rank](u32 p) { return p < v.size() ? u32(rank(p)) + (v[p] ? 0 : EMPTY) : u32(rank(v.size())) + EMPTY; };
  const auto position = [&select](u32 r) { return u32(select(r + 1)); };
  return {name, at, position, sdsl::size_in_bytes(v) + sdsl::size_in_bytes(rank) + sdsl::size_in_bytes(select), size_t(1) << 16};
}

static void peers(const char *texture, const vector<u32> &words) {
  vector<u32> stored;
  for (u32 p = 0; p < CELLS; p++)
    if (words[p]) stored.push_back(p);
  const Questions q = questions(stored);
  for (Setting s : TIMED) {
    vector<u8> file;
    report(texture, engine(s, words, stored.size(), file), q, stored);
  }
  roaring_bitmap_t *b = roaring_bitmap_of_ptr(stored.size(), stored.data());
  roaring_bitmap_run_optimize(b), roaring_bitmap_shrink_to_fit(b);
  report(texture, roaring(b), q, stored);
  roaring_bitmap_free(b);
  const sdsl::sd_vector<> sparse(stored.begin(), stored.end());
  const sdsl::sd_vector<>::rank_1_type sparse_rank(&sparse);
  const sdsl::sd_vector<>::select_1_type sparse_select(&sparse);
  report(texture, succinct("SDSL sd_vector", sparse, sparse_rank, sparse_select), q, stored);
  sdsl::bit_vector bits(CELLS, 0);
  for (u32 p : stored) bits[p] = 1;
  const sdsl::rank_support_v5<> rank(&bits);
  const sdsl::select_support_mcl<> select(&bits);
  report(texture, succinct("SDSL bit_vector", bits, rank, select), q, stored);
}

int main() {
  const char *names[] = {"sea", "harbour", "speckle"};
  for (int t = 0; t < 3; t++) peers(names[t], picture(t, 7 + t, CELLS));
  return 0;
}
