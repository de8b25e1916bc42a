// How long the files of the yardstick's three pictures are, made by the engine.
//   sizes FOLDER    writes each picture's words to FOLDER/TEXTURE.words and its shortest file to FOLDER/TEXTURE.shortest, and prints
//                   lines of three fields with tabs between: texture, what was counted, count (of cells, stored cells or bytes)
// The yardstick's bench.cpp is included for its pictures, so that they are the ones timed; -I names its folder.
#define main bench_main
#include "bench.cpp"
#undef main
#include "radar_archive.h"
#include <fstream>

static const u32 EXTENTS[4] = {16, 1024, 1024, 1};
static const Setting TIMED[] = {{1, 0, 0}, {2, 0, 0}, {3, 2, 16}, {4, 1, 0}, {4, 2, 0}, {5, 0, 16}, {6, 1, 16}, {6, 2, 16}};

struct Made { Setting setting; vector<u8> file; };

static void fail(const string &what) {
  fprintf(stderr, "sizes: %s\n", what.c_str());
  exit(1);
}

static void save(const string &path, const void *bytes, size_t length) {
  ofstream out(path, ios::binary);
  out.write(static_cast<const char *>(bytes), streamsize(length));
  out.close();
  if (!out) fail("cannot write " + path);
}

static void print_count(const char *texture, const string &what, size_t n) { printf("%s\t%s\t%zu\n", texture, what.c_str(), n); }

// The file of the words in a setting; it has to pass the check and to give the words back.
static Made made(Setting s, const vector<u32> &words) {
  static vector<u8> room(176u << 20);
  static vector<u32> back(CELLS);
  const u32 code = ra_make(s.kind, s.width, s.step, 3, EXTENTS, 4, 0, words.data(), words.size(), room.data(), room.size());
  if (code) fail("make in kind " + label(s) + " gives " + to_string(code));
  const vector<u8> file(room.begin(), room.begin() + field(room.data(), 48));
  fill(back.begin(), back.end(), 1);
  if (ra_check(file.data(), file.size()) || ra_expand(file.data(), file.size(), back.data(), back.size()) || back != words)
    fail("the file of kind " + label(s) + " does not give its words back");
  return {s, file};
}

// Whether kind 3 has a file in a setting: into no bytes at all, change says 9 (unfit) before 10 (small).
static bool fits(const vector<u8> &file, Setting s) {
  const u32 code = ra_change(file.data(), file.size(), s.kind, s.width, s.step, nullptr, 0);
  if (code != 9 && code != 10) fail("change to kind " + label(s) + " gives " + to_string(code));
  return code == 10;
}

// The settings of kind 3 or 5 among which its shortest file is. In kind 3 the step sets the number of bases, so for each width the
// largest step that fits gives the shortest; in kind 5 larger pages have fewer entries above them.
static vector<Setting> candidates(u32 kind, const vector<u8> &file) {
  if (kind == 5) return {{5, 0, 64}};
  vector<Setting> found;
  for (u32 width = 1; width <= 2; width++) {
    u32 step = 255;
    while (!fits(file, {3, width, step})) step--;   // a step of 1 always fits
    found.push_back({3, width, step});
  }
  return found;
}

// Keeps the shorter of two files, the first on equal length; a file is never empty.
static void keep_shorter(Made &kept, const Made &other) {
  if (kept.file.empty() || other.file.size() < kept.file.size()) kept = other;
}

static void sizes(const char *texture, const vector<u32> &words, const string &folder) {
  print_count(texture, "cells", words.size());
  print_count(texture, "stored", words.size() - size_t(count(words.begin(), words.end(), 0u)));
  print_count(texture, "words", 4 * words.size());
  save(folder + "/" + texture + ".words", words.data(), 4 * words.size());
  Made shortest;
  for (Setting s : TIMED) {
    const Made m = made(s, words);
    print_count(texture, "kind " + label(s), m.file.size());
    keep_shorter(shortest, m);
  }
  const Made positions = made({2, 0, 0}, words);
  for (u32 kind : {3u, 5u}) {
    Made best;
    for (Setting s : candidates(kind, positions.file)) keep_shorter(best, made(s, words));
    print_count(texture, "best " + label(best.setting), best.file.size());
    keep_shorter(shortest, best);
  }
  print_count(texture, "shortest " + label(shortest.setting), shortest.file.size());
  save(folder + "/" + texture + ".shortest", shortest.file.data(), shortest.file.size());
}

int main(int argc, char **argv) {
  if (argc != 2) fail("usage: sizes FOLDER");
  const char *textures[] = {"sea", "harbour", "speckle"};
  for (int t = 0; t < 3; t++) sizes(textures[t], picture(t, 7 + t, CELLS), argv[1]);
  return 0;
}
