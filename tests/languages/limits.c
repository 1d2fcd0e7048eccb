/* limits KIND: tests the calls at their limits, with stored forms of a kind (0 compact, 1 JSON). It tries buffers of 0 to
   4,096 bytes, every prefix of every input, 100,000 changed bytes, refused memory, and arguments out of range.

   A page without access follows each input and buffer, so a read or write past its end ends the run.
   Prints what is wrong, and ends with 0 if nothing is. */
#define _DEFAULT_SOURCE
#include "calls.h"
#include <stdio.h>
#include <stdlib.h>
#include <string.h>
#include <sys/mman.h>
#include <unistd.h>

enum { BUFFER = 4096, CHANGES = 100000, UNTOUCHED = 0xEE, CALLS_WITH_TIMES = 13 };

static struct hcs_cache cache;
static struct text exchange[INPUTS];
static uint8_t forms[FORMS * FORM_SIZE];
static uint8_t *text_end, *form_end, *input_end[INPUTS];
static size_t wrong, wrong_times;

static void fail(const char *what, const struct call *call, size_t at, int32_t code) {
  if (++wrong <= 20)
    printf("%s: %s at %zu: %d\n", what, call->name, at, (int)code);
}

/* Returns the end of a buffer of BUFFER bytes, which a page without access follows. */
static uint8_t *guarded(void) {
  size_t page = (size_t)sysconf(_SC_PAGESIZE), size = (BUFFER + page - 1) / page * page;
  uint8_t *start = mmap(NULL, size + page, PROT_READ | PROT_WRITE, MAP_PRIVATE | MAP_ANONYMOUS, -1, 0);
  if (start == MAP_FAILED || mprotect(start + size, page, PROT_NONE) != 0) {
    perror("mmap");
    exit(2);
  }
  return start + size;
}

/* Copies the first bytes of an input to the end of its buffer, and returns them. */
static struct text placed(int input, size_t len) {
  struct text text = {len ? input_end[input] - len : NULL, len};
  if (len)
    memcpy(input_end[input] - len, exchange[input].at, len);
  return text;
}

static void place_all(struct text *in) {
  for (int input = 0; input < INPUTS; input++)
    in[input] = placed(input, exchange[input].len);
}

static struct results empty_results(size_t text_len, size_t form_len) {
  struct results results = {{text_len ? text_end - text_len : NULL, text_len, 0},
                            {form_len ? form_end - form_len : NULL, form_len, 0}, 0};
  memset(text_end - BUFFER, UNTOUCHED, BUFFER);
  memset(form_end - BUFFER, UNTOUCHED, BUFFER);
  return results;
}

/* Returns whether the bytes of a buffer from an index on, and the bytes before the buffer, are unchanged. */
static int is_untouched(const uint8_t *end, const struct out *out, size_t from) {
  for (const uint8_t *at = end - BUFFER; at < end - out->len; at++)
    if (*at != UNTOUCHED)
      return 0;
  for (size_t at = from; at < out->len; at++)
    if (out->at[at] != UNTOUCHED)
      return 0;
  return 1;
}

static int writes_nothing(const struct results *results) {
  return is_untouched(text_end, &results->text, 0) && is_untouched(form_end, &results->form, 0);
}

/* Returns whether nothing is written and no length is needed, as after every error but TOO_SMALL. */
static int is_without_result(const struct results *results) {
  return writes_nothing(results) && results->text.needed == 0 && results->form.needed == 0;
}

static int writes_no_more(const struct call *call, const struct results *results) {
  return is_untouched(text_end, &results->text, call->writes_text ? results->text.needed : 0) &&
         is_untouched(form_end, &results->form, call->writes_form ? results->form.needed : 0);
}

static int32_t run(const struct call *call, const struct text *in, struct results *results) {
  return call->run(&cache, in, results);
}

static void whole_results(const struct call *call) {
  struct text in[INPUTS];
  struct results results = empty_results(BUFFER, BUFFER);
  place_all(in);
  int32_t code = run(call, in, &results);
  if (!is_expected(call, code, &results) || !writes_no_more(call, &results))
    fail("result", call, results.text.needed, code);
}

static void short_buffers_of(const struct call *call, int of_form, size_t needed) {
  struct text in[INPUTS];
  place_all(in);
  for (size_t len = 0; len <= BUFFER; len++) {
    struct results results = empty_results(of_form ? BUFFER : len, of_form ? len : BUFFER);
    int32_t code = run(call, in, &results);
    size_t reported = of_form ? results.form.needed : results.text.needed;
    int is_right = len < needed ? code == TOO_SMALL && writes_nothing(&results)
                                : is_expected(call, code, &results) && writes_no_more(call, &results);
    if (!is_right || reported != needed)
      fail(of_form ? "form's buffer" : "buffer", call, len, code);
  }
}

static void short_buffers(const struct call *call) {
  struct text in[INPUTS];
  struct results results = empty_results(BUFFER, BUFFER);
  place_all(in);
  if (call->writes_text)
    short_buffers_of(call, 0, length_of(call));
  if (!call->writes_form)
    return;
  run(call, in, &results);
  short_buffers_of(call, 1, results.form.needed);
}

static void prefixes_of(const struct call *call, int input) {
  struct text in[INPUTS];
  place_all(in);
  for (size_t len = 0; len < exchange[input].len; len++) {
    struct results results = empty_results(BUFFER, BUFFER);
    in[input] = placed(input, len);
    int32_t code = run(call, in, &results);
    if (code != MALFORMED || !is_without_result(&results))
      fail("prefix", call, len, code);
  }
}

static void prefixes(const struct call *call) {
  for (int input = 0; input < NAME; input++)
    if (call->reads & 1u << input)
      prefixes_of(call, input);
}

/* Returns whether a text is a head: its lines end in CRLF, it has no other CR or LF, and only its last line is empty. */
static int is_head(const struct out *out) {
  size_t line = 0;
  for (size_t at = 0; at < out->needed; at++) {
    if (out->at[at] == '\n')
      return 0;
    if (out->at[at] != '\r')
      continue;
    if (++at == out->needed || out->at[at] != '\n')
      return 0;
    if (at - 1 == line)
      return at + 1 == out->needed;
    line = at + 1;
  }
  return 0;
}

/* Returns whether a call has written a head, if it has to. hcs_choose writes none if no response is for the request. */
static int is_head_of(const struct call *call, int32_t code, const struct out *out) {
  int is_none = call->reads & 1u << OTHER && code == NO_MATCH;
  return is_none ? out->needed == 0 : !call->writes_text || call->lines[1] == NULL || is_head(out);
}

static uint32_t random_number(void) {
  static uint32_t state = 2463534242u;
  state ^= state << 13;
  state ^= state >> 17;
  state ^= state << 5;
  return state;
}

static void changed(const struct call *call) {
  struct text in[INPUTS];
  struct results results = empty_results(BUFFER, BUFFER);
  int input;
  do
    input = (int)(random_number() % INPUTS);
  while (!(call->reads & 1u << input));
  place_all(in);
  size_t at = random_number() % in[input].len;
  input_end[input][-(ptrdiff_t)(in[input].len - at)] = (uint8_t)random_number();
  int32_t code = run(call, in, &results);
  int is_error = code < 0 && code >= BAD_ARGUMENT && code != OUT_OF_MEMORY && code != TOO_SMALL;
  if (is_error ? !is_without_result(&results) : code < 0 || code > FROM_NOTHING || !writes_no_more(call, &results))
    fail("changed byte", call, at, code);
  if (!is_error && !is_head_of(call, code, &results.text))
    fail("no head after a changed byte", call, at, code);
}

static long refuse_at, requests, held;
void *__real_malloc(size_t);
void *__real_realloc(void *, size_t);
void __real_free(void *);
void *__wrap_malloc(size_t size);
void *__wrap_realloc(void *block, size_t size);
void __wrap_free(void *block);

void *__wrap_malloc(size_t size) {
  if (++requests == refuse_at)
    return NULL;
  held++;
  return __real_malloc(size);
}

void *__wrap_realloc(void *block, size_t size) {
  if (++requests == refuse_at)
    return NULL;
  held += block == NULL;
  return __real_realloc(block, size);
}

void __wrap_free(void *block) {
  held -= block != NULL;
  __real_free(block);
}

static long requests_of(const struct call *call, long refused) {
  struct text in[INPUTS];
  struct results results = empty_results(BUFFER, BUFFER);
  place_all(in);
  requests = held = 0;
  refuse_at = refused;
  int32_t code = run(call, in, &results);
  refuse_at = 0;
  int is_right = refused ? code == OUT_OF_MEMORY && is_without_result(&results) : is_expected(call, code, &results);
  if (!is_right || held != 0)
    fail(held ? "kept memory" : "refused memory", call, (size_t)refused, code);
  return requests;
}

static void refused_memory(const struct call *call) {
  long count = requests_of(call, 0);
  if (count == 0)
    fail("no memory taken, so none is refused", call, 0, 0);
  for (long at = 1; at <= count; at++)
    requests_of(call, at);
}

enum { OUT_OF_RANGE = 7 };

/* Sets pairs of options and times for hcs_new. In each pair one member is out of range. */
static void out_of_range(struct hcs_cache *caches, struct hcs_time *times) {
  for (int i = 0; i < OUT_OF_RANGE; i++) {
    struct hcs_time start_of_2024 = {1704067200, 0};
    caches[i] = cache;
    times[i] = start_of_2024;
  }
  caches[0].heuristic_denominator = 0;
  caches[1].immutable_nanoseconds = 1000000000;
  caches[2].immutable_nanoseconds = UINT32_MAX;
  times[3].nanoseconds = 1000000000;
  times[4].seconds = INT64_MAX;
  times[5].seconds = INT64_MIN;
  caches[6].form = 2;
}

static void arguments_out_of_range(void) {
  struct hcs_cache caches[OUT_OF_RANGE];
  struct hcs_time times[OUT_OF_RANGE];
  struct text in[INPUTS];
  place_all(in);
  out_of_range(caches, times);
  for (size_t i = 0; i < OUT_OF_RANGE; i++) {
    struct results results = empty_results(BUFFER, BUFFER);
    int32_t code = hcs_new(&caches[i], in[REQUEST].at, in[REQUEST].len, in[RESPONSE].at, in[RESPONSE].len,
                           &times[i], results.form.at, results.form.len, &results.form.needed);
    if (code != BAD_ARGUMENT || !is_without_result(&results))
      fail("out of range", &calls[0], i, code);
  }
}

static void time_out_of_range(const struct call *call, struct hcs_time *time) {
  struct text in[INPUTS];
  struct results results = empty_results(BUFFER, BUFFER);
  struct hcs_time kept = *time;
  place_all(in);
  time->nanoseconds = 1000000000;
  int32_t code = run(call, in, &results);
  *time = kept;
  if (code == BAD_ARGUMENT ? !is_without_result(&results) : !is_expected(call, code, &results))
    fail("a time out of range", call, 0, code);
  wrong_times += code == BAD_ARGUMENT;
}

/* Each call with a time uses one of these three. */
static void times_out_of_range(void) {
  wrong_times = 0;
  for (size_t i = 0; i < call_count; i++) {
    time_out_of_range(&calls[i], &start);
    time_out_of_range(&calls[i], &fresh);
    time_out_of_range(&calls[i], &stale);
  }
  if (wrong_times != CALLS_WITH_TIMES)
    fail("times that are refused", &calls[0], wrong_times, 0);
}

static void a_name_that_is_no_text(void) {
  struct results results = empty_results(BUFFER, BUFFER);
  struct text in[INPUTS];
  place_all(in);
  int32_t code = hcs_explain(&cache, in[FORM].at, in[FORM].len, in[REQUEST].at, in[REQUEST].len, &fresh,
                             (const uint8_t *)"\xff", 1, results.text.at, results.text.len, &results.text.needed);
  if (code != BAD_ARGUMENT || !is_without_result(&results))
    fail("a name that is no text", &calls[0], 0, code);
}

/* Tests hcs_choose on forms whose lengths don't add up, on no form, and on a form that isn't for the request. */
static void lengths_of_forms(void) {
  struct text in[INPUTS];
  place_all(in);
  size_t len = in[OTHER].len, lengths[][2] = {{len - 1, 0}, {len + 1, 0}, {len, 1}, {SIZE_MAX, len + 1}, {0, 0}, {len, 0}};
  size_t counts[] = {1, 1, 2, 2, 0, 1};
  int32_t codes[] = {MALFORMED, MALFORMED, MALFORMED, MALFORMED, NO_MATCH, NO_MATCH};
  for (size_t i = 0; i < sizeof counts / sizeof *counts; i++) {
    struct results results = empty_results(BUFFER, BUFFER);
    size_t index = 99;
    int32_t code = hcs_choose(&cache, in[OTHER].at, counts[i] ? len : 0, counts[i] ? lengths[i] : NULL, counts[i],
                              in[REQUEST].at, in[REQUEST].len, &fresh, &index, results.text.at, results.text.len,
                              &results.text.needed);
    if (code != codes[i] || !is_without_result(&results) || (code == NO_MATCH && index != counts[i]))
      fail("lengths of forms", &calls[0], i, code);
  }
}

int main(int argc, char **argv) {
  uint8_t kind = (uint8_t)(argc > 1 ? atoi(argv[1]) : 0);
  text_end = guarded();
  form_end = guarded();
  for (int input = 0; input < INPUTS; input++)
    input_end[input] = guarded();
  hcs_defaults(&cache);
  cache.form = kind;
  cache.secret = 1;
  if (!make_exchange(kind, forms, exchange) || (kind ? forms[0] != '{' : forms[0] != 1)) {
    printf("no stored form of this kind\n");
    return 2;
  }
  for (size_t i = 0; i < call_count; i++) {
    whole_results(&calls[i]);
    short_buffers(&calls[i]);
    prefixes(&calls[i]);
    refused_memory(&calls[i]);
  }
  arguments_out_of_range();
  times_out_of_range();
  a_name_that_is_no_text();
  lengths_of_forms();
  for (size_t i = 0; i < CHANGES; i++)
    changed(&calls[i % call_count]);
  printf("%zu wrong\n", wrong);
  return wrong != 0;
}
