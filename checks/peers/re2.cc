// Finds all matches in a text by RE2. The patterns are the lines of a file, joined by `|`: re2 PATTERNS TEXT ROUNDS.
// Prints the number of matches, and the least time of a round in microseconds.
#include <re2/re2.h>

#include <algorithm>
#include <chrono>
#include <cstdio>
#include <cstdlib>
#include <fstream>
#include <sstream>
#include <string>

static std::string read(const char* path) {
  std::ifstream file(path, std::ios::binary);
  std::stringstream text;
  text << file.rdbuf();
  return text.str();
}

int main(int count, char** words) {
  if (count != 4) return 2;
  std::istringstream lines(read(words[1]));
  std::string line, joined;
  while (std::getline(lines, line)) joined += (joined.empty() ? "(?:" : "|(?:") + line + ")";
  RE2::Options options;
  options.set_encoding(RE2::Options::EncodingLatin1);
  options.set_never_capture(true);
  options.set_max_mem(1ll << 30);
  RE2 pattern(joined, options);
  if (!pattern.ok()) return 1;
  std::string text = read(words[2]);
  long matches = 0, least = -1;
  for (int round = atoi(words[3]); round > 0; round--) {
    auto begin = std::chrono::steady_clock::now();
    size_t at = 0;
    re2::StringPiece found;
    for (matches = 0; pattern.Match(text, at, text.size(), RE2::UNANCHORED, &found, 1); matches++) {
      size_t end = found.data() + found.size() - text.data();
      at = std::max(end, at + 1);
      if (at > text.size()) break;
    }
    long spent = std::chrono::duration_cast<std::chrono::microseconds>(std::chrono::steady_clock::now() - begin).count();
    if (least < 0 || spent < least) least = spent;
  }
  printf("%ld %ld\n", matches, least);
}
