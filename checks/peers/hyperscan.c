// Finds every end of a match, with its start, by Hyperscan. The patterns are the lines of a file:
// hyperscan PATTERNS TEXT ROUNDS. Prints the number of ends, and the least time of a round in microseconds.
#include <hs/hs.h>
#include <stdio.h>
#include <stdlib.h>
#include <string.h>
#include <time.h>

#define MOST 10000

static char *read_file(const char *path, size_t *size) {
  FILE *file = fopen(path, "rb");
  char *text;
  fseek(file, 0, SEEK_END);
  *size = ftell(file);
  rewind(file);
  text = malloc(*size + 1);
  if (fread(text, 1, *size, file) != *size) exit(1);
  text[*size] = 0;
  return text;
}

static int told(unsigned id, unsigned long long from, unsigned long long to, unsigned flags, void *matches) {
  ++*(long *)matches;
  return 0;
}

int main(int count, char **words) {
  const char *patterns[MOST];
  unsigned flags[MOST], ids[MOST], len = 0;
  size_t size;
  long matches = 0, least = -1;
  hs_database_t *database;
  hs_compile_error_t *error;
  hs_scratch_t *scratch = NULL;
  if (count != 4) return 2;
  for (char *line = strtok(read_file(words[1], &size), "\n"); line && len < MOST; line = strtok(NULL, "\n")) {
    patterns[len] = line;
    flags[len] = HS_FLAG_SOM_LEFTMOST;
    ids[len] = len;
    len++;
  }
  if (hs_compile_multi(patterns, flags, ids, len, HS_MODE_BLOCK, NULL, &database, &error) != HS_SUCCESS) return 1;
  hs_alloc_scratch(database, &scratch);
  char *text = read_file(words[2], &size);
  for (int round = atoi(words[3]); round > 0; round--) {
    struct timespec begin, end;
    matches = 0;
    clock_gettime(CLOCK_MONOTONIC, &begin);
    hs_scan(database, text, size, 0, scratch, told, &matches);
    clock_gettime(CLOCK_MONOTONIC, &end);
    long spent = (end.tv_sec - begin.tv_sec) * 1000000 + (end.tv_nsec - begin.tv_nsec) / 1000;
    if (least < 0 || spent < least) least = spent;
  }
  printf("%ld %ld\n", matches, least);
  return 0;
}
