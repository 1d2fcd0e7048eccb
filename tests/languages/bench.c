/* bench FOLDER KIND COUNT [CALLS]: makes each call, or the first CALLS, COUNT times on the messages in a folder, with stored
   forms of a kind. Prints for each call its name, its requests for memory, and the most bytes that it holds.

   The function `measured` makes the calls, so that callgrind can count only them. */
#include "calls.h"
#include <malloc.h>
#include <stdio.h>
#include <stdlib.h>
#include <string.h>

enum { SIZE = 4 << 20 };

static uint8_t files[INPUTS][SIZE], text[SIZE], next[SIZE];
static size_t requests, held, most;

void *__real_malloc(size_t);
void *__real_realloc(void *, size_t);
void __real_free(void *);
void *__wrap_malloc(size_t size);
void *__wrap_realloc(void *block, size_t size);
void __wrap_free(void *block);

static void *taken(void *block) {
  requests++;
  held += malloc_usable_size(block);
  if (held > most)
    most = held;
  return block;
}

void *__wrap_malloc(size_t size) { return taken(__real_malloc(size)); }

void *__wrap_realloc(void *block, size_t size) {
  held -= malloc_usable_size(block);
  return taken(__real_realloc(block, size));
}

void __wrap_free(void *block) {
  held -= malloc_usable_size(block);
  __real_free(block);
}

static FILE *opened(const char *folder, const char *name) {
  char path[1024];
  snprintf(path, sizeof path, "%s/%s", folder, name);
  FILE *file = fopen(path, "rb");
  if (!file) {
    perror(path);
    exit(2);
  }
  return file;
}

static void load(const char *folder, const char *name, int input, struct text *in) {
  FILE *file = opened(folder, name);
  in[input].at = files[input];
  in[input].len = fread(files[input], 1, SIZE, file);
  fclose(file);
}

static void load_times(const char *folder) {
  struct hcs_time *times[] = {&start, &fresh, &stale};
  FILE *file = opened(folder, "times");
  for (int i = 0; i < 3; i++) {
    long long seconds;
    unsigned nanoseconds;
    if (fscanf(file, "%lld %u", &seconds, &nanoseconds) != 2)
      exit(2);
    times[i]->seconds = seconds;
    times[i]->nanoseconds = nanoseconds;
  }
  fclose(file);
}

int32_t measured(const struct call *call, const struct hcs_cache *cache, const struct text *in, long count);

__attribute__((noinline)) int32_t measured(const struct call *call, const struct hcs_cache *cache,
                                           const struct text *in, long count) {
  int32_t code = 0;
  for (long i = 0; i < count; i++) {
    struct results results = {{text, SIZE, 0}, {next, SIZE, 0}, 0};
    code = call->run(cache, in, &results);
  }
  return code;
}

int main(int argc, char **argv) {
  struct text in[INPUTS];
  struct hcs_cache cache;
  if (argc != 4 && argc != 5)
    return 2;
  size_t last = argc == 5 ? (size_t)atol(argv[4]) : call_count;
  load(argv[1], "request", REQUEST, in);
  load(argv[1], "response", RESPONSE, in);
  load(argv[1], "received", RECEIVED, in);
  load(argv[1], "name", NAME, in);
  load_times(argv[1]);
  hcs_defaults(&cache);
  cache.form = (uint8_t)atoi(argv[2]);
  struct results results = {{text, SIZE, 0}, {files[FORM], SIZE, 0}, 0};
  if (calls[0].run(&cache, in, &results) != 1)
    return 2;
  in[FORM].at = files[FORM];
  in[FORM].len = results.form.needed;
  in[OTHER] = in[FORM];
  for (size_t i = 0; i < call_count && i < last; i++) {
    requests = held = most = 0;
    int32_t code = measured(&calls[i], &cache, in, atol(argv[3]));
    if (code < 0)
      return 3;
    printf("%s|%zu|%zu\n", calls[i].name, requests / (size_t)atol(argv[3]), most);
  }
  return 0;
}
