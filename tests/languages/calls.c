#include "calls.h"
#include <string.h>

static const char request[] = "GET /a HTTP/1.1\r\nHost: example.com\r\nIf-None-Match: \"1\"\r\n\r\n";
static const char other[] = "GET /b HTTP/1.1\r\nHost: example.com\r\n\r\n";
static const char response[] =
    "HTTP/1.1 200 OK\r\nCache-Control: max-age=10, stale-while-revalidate=5\r\nETag: \"1\"\r\nX-A: 1\r\nX-A: 2\r\n\r\n";
static const char confirming[] = "HTTP/1.1 304 Not Modified\r\nETag: \"1\"\r\nX-A: 3\r\n\r\n";
static const char name[] = "ExampleCache";
struct hcs_time start = {1704067200, 0}, fresh = {1704067204, 0}, stale = {1704067212, 0};

#define IN(input) in[input].at, in[input].len
#define OUT(out) (out).at, (out).len, &(out).needed
#define PARAMETERS const struct hcs_cache *c, const struct text *in, struct results *r

static int32_t new_(PARAMETERS) { return hcs_new(c, IN(REQUEST), IN(RESPONSE), &start, OUT(r->form)); }

static int32_t before_fresh(PARAMETERS) { return hcs_before(c, IN(FORM), IN(REQUEST), &fresh, OUT(r->text)); }

static int32_t before_stale(PARAMETERS) { return hcs_before(c, IN(FORM), IN(REQUEST), &stale, OUT(r->text)); }

static int32_t after_304(PARAMETERS) {
  return hcs_after(c, IN(FORM), IN(REQUEST), IN(RECEIVED), &stale, OUT(r->form), OUT(r->text));
}

static int32_t after_200(PARAMETERS) {
  return hcs_after(c, IN(FORM), IN(REQUEST), IN(RESPONSE), &stale, OUT(r->form), OUT(r->text));
}

/* Chooses between the form of another target and the form of the exchange. */
static int32_t choose(PARAMETERS) {
  enum { MOST = 16384 };
  uint8_t forms[FORMS * MOST];
  size_t lengths[FORMS] = {in[OTHER].len, in[FORM].len}, index = 0;
  if (in[OTHER].len > MOST || in[FORM].len > MOST)
    return BAD_ARGUMENT;
  if (in[OTHER].len)
    memcpy(forms, in[OTHER].at, in[OTHER].len);
  if (in[FORM].len)
    memcpy(forms + in[OTHER].len, in[FORM].at, in[FORM].len);
  int32_t code = hcs_choose(c, forms, in[OTHER].len + in[FORM].len, lengths, FORMS, IN(REQUEST), &fresh, &index,
                            OUT(r->text));
  r->number = index;
  return code;
}

static int32_t explain(PARAMETERS) {
  return hcs_explain(c, IN(FORM), IN(REQUEST), &fresh, IN(NAME), OUT(r->text));
}

static int32_t storability(PARAMETERS) {
  uint32_t obstacles = 0;
  (void)c;
  int32_t code = hcs_storability(IN(FORM), &obstacles);
  r->number = obstacles;
  return code;
}

static int32_t freshness(PARAMETERS) {
  struct hcs_duration lifetime = {0, 0};
  (void)c;
  int32_t code = hcs_freshness(IN(FORM), &lifetime);
  r->number = lifetime.seconds;
  return code;
}

static int32_t age(PARAMETERS) {
  struct hcs_duration found = {0, 0};
  (void)c;
  int32_t code = hcs_age(IN(FORM), &fresh, &found);
  r->number = found.seconds;
  return code;
}

static int32_t time_to_live(PARAMETERS) {
  struct hcs_duration left = {0, 0};
  (void)c;
  int32_t code = hcs_time_to_live(IN(FORM), &fresh, &left);
  r->number = left.seconds;
  return code;
}

static int32_t stale_use(PARAMETERS) {
  (void)r;
  return hcs_stale_use(c, IN(FORM), IN(REQUEST), &stale);
}

static int32_t response_at(PARAMETERS) {
  (void)c;
  return hcs_response_at(IN(FORM), &fresh, OUT(r->text));
}

static int32_t is_not_modified_for(PARAMETERS) {
  (void)r;
  return hcs_is_not_modified_for(c, IN(FORM), IN(REQUEST));
}

static int32_t is_confirmed_by(PARAMETERS) {
  (void)r;
  return hcs_is_confirmed_by(c, IN(FORM), IN(RECEIVED));
}

static int32_t joined(PARAMETERS) { return hcs_joined(c, IN(RESPONSE), OUT(r->text)); }

static int32_t updated(PARAMETERS) { return hcs_updated(c, IN(RESPONSE), IN(RECEIVED), OUT(r->text)); }

static int32_t fresh_at(PARAMETERS) {
  (void)r;
  return hcs_fresh_at(c, IN(FORM), IN(REQUEST), &fresh);
}

static int32_t may_be_used(PARAMETERS) {
  (void)r;
  return hcs_may_be_used(c, IN(FORM), IN(REQUEST), &fresh);
}

#define OK "HTTP/1.1 200 \r\n"
#define LIFETIME "cache-control: max-age=10, stale-while-revalidate=5\r\n"
#define TAG "etag: \"1\"\r\n"
#define END "\r\n"
#define DATED(age, second) "age: " age "\r\n", "date: Mon, 01 Jan 2024 00:00:" second " +0000\r\n"
#define BIT(input) (1u << (input))

/* In hcs_before and hcs_after a policy sends only the last of several lines of a field. */
const struct call calls[] = {
    {"hcs_new", new_, BIT(REQUEST) | BIT(RESPONSE), 0, 1, 1, 0, {0}},
    {"hcs_before, fresh", before_fresh, BIT(FORM) | BIT(REQUEST), 1, 0, FRESH, 0,
     {OK, LIFETIME, TAG, "x-a: 2\r\n", DATED("4", "04"), END}},
    {"hcs_before, stale", before_stale, BIT(FORM) | BIT(REQUEST), 1, 0, VALIDATE, 0,
     {"GET /a HTTP/1.1\r\n", "host: example.com\r\n", "if-none-match: \"1\", \"1\"\r\n", END}},
    {"hcs_after, a 304", after_304, BIT(FORM) | BIT(REQUEST) | BIT(RECEIVED), 1, 1, NOT_MODIFIED, 0,
     {OK, LIFETIME, TAG, "x-a: 3\r\n", DATED("0", "12"), END}},
    {"hcs_after, a 200", after_200, BIT(FORM) | BIT(REQUEST) | BIT(RESPONSE), 1, 1, MODIFIED, 0,
     {OK, LIFETIME, TAG, "x-a: 2\r\n", DATED("0", "12"), END}},
    {"hcs_choose", choose, BIT(FORM) | BIT(OTHER) | BIT(REQUEST), 1, 0, FRESH, 1,
     {OK, LIFETIME, TAG, "x-a: 2\r\n", DATED("4", "04"), END}},
    {"hcs_explain", explain, BIT(FORM) | BIT(REQUEST) | BIT(NAME), 1, 0, 0, 0, {"ExampleCache; hit; ttl=6"}},
    {"hcs_storability", storability, BIT(FORM), 0, 0, BY_MAX_AGE, 0, {0}},
    {"hcs_freshness", freshness, BIT(FORM), 0, 0, FROM_MAX_AGE, 10, {0}},
    {"hcs_age", age, BIT(FORM), 0, 0, 0, 4, {0}},
    {"hcs_time_to_live", time_to_live, BIT(FORM), 0, 0, 0, 6, {0}},
    {"hcs_stale_use", stale_use, BIT(FORM) | BIT(REQUEST), 0, 0, WHILE_REVALIDATING, 0, {0}},
    {"hcs_response_at", response_at, BIT(FORM), 1, 0, 0, 0,
     {OK, LIFETIME, TAG, "x-a: 1\r\n", "x-a: 2\r\n", "age: 4\r\n", END}},
    {"hcs_is_not_modified_for", is_not_modified_for, BIT(FORM) | BIT(REQUEST), 0, 0, 1, 0, {0}},
    {"hcs_is_confirmed_by", is_confirmed_by, BIT(FORM) | BIT(RECEIVED), 0, 0, 1, 0, {0}},
    {"hcs_joined", joined, BIT(RESPONSE), 1, 0, 0, 0, {OK, LIFETIME, TAG, "x-a: 1, 2\r\n", END}},
    {"hcs_updated", updated, BIT(RESPONSE) | BIT(RECEIVED), 1, 0, 0, 0, {OK, LIFETIME, TAG, "x-a: 3\r\n", END}},
    {"hcs_fresh_at", fresh_at, BIT(FORM) | BIT(REQUEST), 0, 0, 1, 0, {0}},
    {"hcs_may_be_used", may_be_used, BIT(FORM) | BIT(REQUEST), 0, 0, 1, 0, {0}},
};
const size_t call_count = sizeof calls / sizeof *calls;

static struct text text_of(const char *at) {
  struct text text = {(const uint8_t *)at, strlen(at)};
  return text;
}

/* Makes the stored form of the response to a request. Returns whether the response may be stored. */
static int make_form(const struct hcs_cache *cache, const char *asked, uint8_t *form, struct text *made) {
  size_t len = 0;
  struct text q = text_of(asked), r = text_of(response);
  int32_t code = hcs_new(cache, q.at, q.len, r.at, r.len, &start, form, FORM_SIZE, &len);
  made->at = form;
  made->len = len;
  return code == 1;
}

int make_exchange(uint8_t kind, uint8_t *forms, struct text *inputs) {
  struct hcs_cache cache;
  hcs_defaults(&cache);
  cache.form = kind;
  inputs[REQUEST] = text_of(request);
  inputs[RESPONSE] = text_of(response);
  inputs[RECEIVED] = text_of(confirming);
  inputs[NAME] = text_of(name);
  return make_form(&cache, request, forms, &inputs[FORM]) &&
         make_form(&cache, other, forms + FORM_SIZE, &inputs[OTHER]);
}

size_t length_of(const struct call *call) {
  size_t len = 0;
  for (size_t i = 0; i < sizeof call->lines / sizeof *call->lines && call->lines[i]; i++)
    len += strlen(call->lines[i]);
  return len;
}

static int has_line(const struct out *out, const char *line) {
  size_t len = strlen(line);
  for (size_t at = 0; at + len <= out->needed; at++)
    if (memcmp(out->at + at, line, len) == 0)
      return 1;
  return 0;
}

int is_expected(const struct call *call, int32_t code, const struct results *results) {
  if (code != call->code || results->number != call->number)
    return 0;
  if (!call->writes_text)
    return 1;
  if (results->text.needed != length_of(call))
    return 0;
  for (size_t i = 0; i < sizeof call->lines / sizeof *call->lines && call->lines[i]; i++)
    if (!has_line(&results->text, call->lines[i]))
      return 0;
  return 1;
}
