/* threads COUNT ROUNDS: makes every call ROUNDS times in each of COUNT threads, which have their own forms and buffers.
   Then the form is deeply nested JSON. The threads have the stack that is enough by docs/C.md.
   Prints how many calls are wrong, and ends with 0 if none is. */
#include "calls.h"
#include <pthread.h>
#include <stdio.h>
#include <stdlib.h>
#include <string.h>

enum { BUFFER = 4096, MOST_THREADS = 64, STACK = 256 * 1024, DEEPEST = 256 };

struct work {
  pthread_t thread;
  long rounds, done, wrong;
  uint8_t kind;
};

/* Calls with JSON of every depth up to DEEPEST, beyond the limit of the reader. Each call has to fail. */
static void nested_forms(const struct hcs_cache *cache, const struct text *exchange, struct work *work) {
  uint8_t text[BUFFER], next[BUFFER], deep[DEEPEST];
  struct text in[INPUTS];
  memcpy(in, exchange, sizeof in);
  memset(deep, '[', DEEPEST);
  in[FORM].at = deep;
  for (in[FORM].len = 1; in[FORM].len <= DEEPEST; in[FORM].len++)
    for (size_t i = 0; i < call_count; i++) {
      struct results results = {{text, BUFFER, 0}, {next, BUFFER, 0}, 0};
      if (calls[i].reads & 1u << FORM)
        work->wrong += calls[i].run(cache, in, &results) != MALFORMED;
    }
}

static void *all_calls(void *given) {
  struct work *work = given;
  uint8_t forms[FORMS * FORM_SIZE], text[BUFFER], next[BUFFER];
  struct text in[INPUTS];
  struct hcs_cache cache;
  hcs_defaults(&cache);
  cache.form = work->kind;
  if (!make_exchange(work->kind, forms, in))
    work->wrong++;
  for (long round = 0; round < work->rounds; round++)
    for (size_t i = 0; i < call_count; i++) {
      struct results results = {{text, BUFFER, 0}, {next, BUFFER, 0}, 0};
      int32_t code = calls[i].run(&cache, in, &results);
      work->wrong += !is_expected(&calls[i], code, &results);
      work->done++;
    }
  nested_forms(&cache, in, work);
  return NULL;
}

int main(int argc, char **argv) {
  static struct work works[MOST_THREADS];
  long count = argc > 2 ? atol(argv[1]) : 4, done = 0, wrong = 0;
  pthread_attr_t attributes;
  if (count < 1 || count > MOST_THREADS || pthread_attr_init(&attributes) != 0 ||
      pthread_attr_setstacksize(&attributes, STACK) != 0)
    return 2;
  for (long i = 0; i < count; i++) {
    works[i].rounds = argc > 2 ? atol(argv[2]) : 1000;
    works[i].kind = (uint8_t)(i % 2);
    if (pthread_create(&works[i].thread, &attributes, all_calls, &works[i]) != 0)
      return 2;
  }
  for (long i = 0; i < count; i++) {
    pthread_join(works[i].thread, NULL);
    done += works[i].done;
    wrong += works[i].wrong;
  }
  printf("%ld calls, %ld wrong\n", done, wrong);
  return wrong != 0;
}
