/* Each call of the library on one exchange, with its result by RFC 7234. */
#ifndef CALLS_H
#define CALLS_H
#include <http_cache_semantics.h>

/* The results of calls. They are written here as numbers, since the numbers are part of the interface. */
enum { OUT_OF_MEMORY = -1, MALFORMED = -2, TOO_SMALL = -5, BAD_ARGUMENT = -6 };
enum { FRESH, VALIDATE, NO_MATCH };
enum { NOT_MODIFIED, MODIFIED, MODIFIED_NOT_STORABLE };
enum { BY_MAX_AGE = 2, FROM_MAX_AGE = 6, FROM_NOTHING = 12, WHILE_REVALIDATING = 1 };

/* OTHER is the stored form of another target. */
enum input { FORM, OTHER, REQUEST, RESPONSE, RECEIVED, NAME, INPUTS };

struct text {
  const uint8_t *at;
  size_t len;
};

struct out {
  uint8_t *at;
  size_t len, needed;
};

struct results {
  struct out text, form;
  uint64_t number; /* the seconds of a duration, or an index */
};

struct call {
  const char *name;
  int32_t (*run)(const struct hcs_cache *, const struct text *, struct results *);
  unsigned reads;           /* a bit for each input */
  int writes_text, writes_form;
  int32_t code;             /* the result on the exchange.. */
  uint64_t number;
  const char *lines[8];     /* ..and the lines that are written, in any order */
};

extern const struct call calls[];
extern const size_t call_count;

/* The time at which the response is received, and times at which it is fresh and stale. */
extern struct hcs_time start, fresh, stale;

enum { FORM_SIZE = 4096, FORMS = 2 };

/* Writes the stored forms of a kind to a buffer of FORMS times FORM_SIZE, and sets the inputs of the exchange.
   Returns whether that succeeds. */
int make_exchange(uint8_t kind, uint8_t *forms, struct text *inputs);

/* Returns the number of bytes of a call's lines. */
size_t length_of(const struct call *call);

/* Returns whether a code and results are the expected ones of a call on the exchange. */
int is_expected(const struct call *call, int32_t code, const struct results *results);

#endif
