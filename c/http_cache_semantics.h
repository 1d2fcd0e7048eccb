/* Decides when a stored HTTP response may be used again (RFC 7234, RFC 9111, RFC 5861, RFC 9211).

   A message is its head, as HTTP/1.1 sends it: the request or status line, the field lines, and the
   empty line, with nothing after it (RFC 9112). Lines end in CRLF, or in LF only. A policy is its
   stored form: bytes that hcs_new and hcs_after write, to be kept beside the body. Its first byte
   is 1 in the compact form, and anything else is JSON. Each call reads both.

   Each sentence on a call is proved. The word in parentheses is the name of the proved clause in
   the contract of the function, in crates/http_cache_c/src.

   Results. 0 or more: the call succeeded. Below 0: an enum hcs_error. After an error no buffer is
   written (kept), but *needed, *form_needed and *index are.
   Buffers. A call writes its bytes to the start of the caller's buffer, and nothing after them.
   *needed is the number of these bytes. After HCS_TOO_SMALL it is the number that the call writes
   into a buffer that is long enough (too_small). After other errors it is 0 (none_needed).
   Pointers. The length of each buffer follows its pointer. A pointer may be null only if its length
   is 0. What is written may not overlap what is read, nor other things that are written.
   Memory. A call allocates by malloc and frees all of it before it returns. Nothing has to be freed.
   Threads. A call has no state, so any number of calls may run at once. Don't call from a signal
   handler, nor in the child of a fork of a process with several threads. */
#ifndef HTTP_CACHE_SEMANTICS_H
#define HTTP_CACHE_SEMANTICS_H

#include <stddef.h>
#include <stdint.h>

#ifdef __cplusplus
extern "C" {
#endif

/* The errors of a call. */
enum hcs_error {
  HCS_NO_MEMORY = -1,     /* out of memory */
  HCS_MALFORMED = -2,     /* a stored form or a head can't be read */
  HCS_FULL = -3,          /* a header map has no room for the fields: 24,576 names */
  HCS_UNDATED = -4,       /* the Date of a fresh response would be before 1900 */
  HCS_TOO_SMALL = -5,     /* a buffer is shorter than *needed or *form_needed */
  HCS_BAD_ARGUMENT = -6   /* a time, options or a name out of range */
};

/* What a cache does with a request: the result of hcs_before and of hcs_choose. */
enum hcs_verdict {
  HCS_FRESH = 0,     /* it sends the stored body, under the head that was written */
  HCS_VALIDATE = 1,  /* it sends the request that was written, and passes the response to hcs_after */
  HCS_FORWARD = 2    /* it forwards the client's request: no stored response is for it */
};

/* What is stored after a response: the result of hcs_after. */
enum hcs_next {
  HCS_NOT_MODIFIED = 0,  /* the stored body, under the form that was written */
  HCS_MODIFIED = 1,      /* the received body, under the form that was written */
  HCS_NOT_STORABLE = 2   /* nothing: the received response may not be stored */
};

/* What allows a response to be stored: the result of hcs_storability. */
enum hcs_permission {
  HCS_FORBIDDEN = 0,
  HCS_BY_EXPIRES = 1,
  HCS_BY_MAX_AGE = 2,
  HCS_BY_S_MAXAGE = 3,
  HCS_BY_PUBLIC = 4,
  HCS_BY_STATUS = 5
};

/* What forbids storing a response: the bits of *obstacles. */
enum hcs_obstacle {
  HCS_REQUEST_NO_STORE = 1,
  HCS_METHOD = 2,
  HCS_STATUS = 4,
  HCS_RESPONSE_NO_STORE = 8,
  HCS_PRIVATE = 16,
  HCS_AUTHORIZATION = 32,
  HCS_NO_PERMISSION = 64
};

/* What decides how long a response stays fresh: the result of hcs_freshness. */
enum hcs_source {
  HCS_SOURCE_NOT_STORABLE = 0,
  HCS_SOURCE_NO_CACHE = 1,
  HCS_SOURCE_OWN_COOKIES = 2,
  HCS_SOURCE_VARY_ANY = 3,
  HCS_SOURCE_PROXY_REVALIDATE = 4,
  HCS_SOURCE_S_MAXAGE = 5,
  HCS_SOURCE_MAX_AGE = 6,
  HCS_SOURCE_UNREADABLE_EXPIRES = 7,
  HCS_SOURCE_PAST_EXPIRES = 8,
  HCS_SOURCE_EXPIRES = 9,
  HCS_SOURCE_LAST_MODIFIED = 10,
  HCS_SOURCE_IMMUTABLE = 11,
  HCS_SOURCE_NOTHING = 12
};

/* Which use of a stale response is allowed: the result of hcs_stale_use has these bits, or is 0. */
enum hcs_stale {
  HCS_WHILE_REVALIDATE = 1,  /* while it is validated (RFC 5861, section 3) */
  HCS_IF_ERROR = 2           /* if the origin server fails (RFC 5861, section 4) */
};

/* How stored forms are written: the member `form` of struct hcs_cache. */
enum hcs_form {
  HCS_COMPACT = 0,
  HCS_JSON = 1
};

/* The options of a cache. hcs_defaults writes all members. */
struct hcs_cache {
  uint64_t secret;                 /* random bits, chosen once per process, so that no sender */
  uint64_t more_secret;            /* can choose field names whose hashes collide */
  uint64_t immutable_seconds;      /* least lifetime of a response with `immutable` */
  uint32_t immutable_nanoseconds;  /* and its nanoseconds, below 1,000,000,000 */
  uint32_t heuristic_numerator;    /* the fraction of the time since Last-Modified for which */
  uint32_t heuristic_denominator;  /* a response without a lifetime stays fresh; not 0 */
  uint8_t shared;                  /* not 0 for a shared cache */
  uint8_t ignore_cargo_cult;       /* not 0 if cargo-cult directives are ignored */
  uint8_t form;                    /* an enum hcs_form */
};

/* A time: the whole seconds since 1970, rounded down, and the nanoseconds after them. */
struct hcs_time {
  int64_t seconds;
  uint32_t nanoseconds;  /* below 1,000,000,000 */
};

/* A duration: the whole seconds, and the nanoseconds after them. */
struct hcs_duration {
  uint64_t seconds;
  uint32_t nanoseconds;  /* below 1,000,000,000 */
};

/* Returns the version: a byte each for major, minor and patch. */
uint32_t hcs_version(void);

/* Writes the default options.
   cache has the options of a shared cache: a tenth of the time since Last-Modified, 24 hours for
   `immutable`, and no directive ignored (options).
   They are in range (valid).
   The secrets are 0 (secret), and form is HCS_COMPACT (form). */
void hcs_defaults(struct hcs_cache *cache);

/* Makes the policy of a response to a request. The response was received at `received`.
   1 if the response may be stored, else 0; out has the stored form of the policy of the request and
   the response under the options of cache (stored).
   HCS_MALFORMED only if request is no head of a request, or response no head of a response (malformed).
   HCS_FULL only if one of them has more fields than a header map holds (full).
   HCS_UNDATED is never returned (never_undated).
   HCS_TOO_SMALL only if out is shorter than *needed, the length of what it would hold (too_small).
   HCS_BAD_ARGUMENT only if the options, the form or the time are out of range (bad_argument).
   After an error out is as it was (kept), and *needed is 0 but for HCS_TOO_SMALL (none_needed). */
int32_t hcs_new(const struct hcs_cache *cache, const uint8_t *request, size_t request_len,
                const uint8_t *response, size_t response_len, const struct hcs_time *received,
                uint8_t *out, size_t out_len, size_t *needed);

/* Returns what a cache with the stored response does with a request at `now` (RFC 7234, section 4).
   An enum hcs_verdict; out has the head of the response for the client if it is HCS_FRESH, else
   the head of a request for the origin server (answer). With HCS_VALIDATE it validates what is
   stored; with HCS_FORWARD send the client's request in its place.
   HCS_MALFORMED only if stored is no stored form, or request no head of a request (malformed).
   HCS_FULL only if a header map can't hold the fields of the request, or of what is sent (full).
   HCS_UNDATED only if the response is fresh and its Date would be before 1900 (undated).
   HCS_TOO_SMALL only if out is shorter than *needed, the length of what it would hold (too_small).
   HCS_BAD_ARGUMENT only if the time is out of range (bad_argument).
   After an error out is as it was (kept), and *needed is 0 but for HCS_TOO_SMALL (none_needed). */
int32_t hcs_before(const struct hcs_cache *cache, const uint8_t *stored, size_t stored_len,
                   const uint8_t *request, size_t request_len, const struct hcs_time *now,
                   uint8_t *out, size_t out_len, size_t *needed);

/* Chooses among several stored responses for a request at `now`: the first fresh response to it,
   else the first response to it, which has to be validated (RFC 7234, sections 4 and 4.1).
   forms has `count` stored forms one after another, and lengths has the length of each.
   An enum hcs_verdict; *index is the index of the chosen form from 0, and out has the head that
   hcs_before writes for it. With HCS_FORWARD *index is count, and *needed is 0 (choice).
   HCS_MALFORMED only if the lengths don't add up to forms_len, one of the forms is no stored form, or
   request is no head of a request (malformed).
   HCS_FULL only if a header map can't hold the fields of the request, or of what is sent (full).
   HCS_UNDATED only if the chosen response is fresh and its Date would be before 1900 (undated).
   HCS_TOO_SMALL only if out is shorter than *needed, the length of what it would hold (too_small).
   HCS_BAD_ARGUMENT only if the time is out of range (bad_argument).
   After an error out is as it was (kept), and *needed is 0 but for HCS_TOO_SMALL (none_needed). */
int32_t hcs_choose(const struct hcs_cache *cache, const uint8_t *forms, size_t forms_len,
                   const size_t *lengths, size_t count, const uint8_t *request, size_t request_len,
                   const struct hcs_time *now, size_t *index, uint8_t *out, size_t out_len,
                   size_t *needed);

/* Returns what is stored after the response to a validating request, which was received at `now`
   (RFC 7234, section 4.3.4).
   An enum hcs_next; form has the stored form of the next policy, and out the head for the client (next).
   HCS_MALFORMED only if stored is no stored form, or one of the heads can't be read (malformed).
   HCS_FULL only if a header map can't hold the fields of a head, or of what is sent (full).
   HCS_UNDATED only if the Date of what is sent would be before 1900 (undated).
   HCS_TOO_SMALL only if form is shorter than *form_needed, or out than *needed, which are the
   lengths of what they would hold (too_small).
   HCS_BAD_ARGUMENT only if the form or the time is out of range (bad_argument).
   After an error form is as it was (form_kept), and so is out (kept). Both lengths are 0 but for
   HCS_TOO_SMALL (none_needed). */
int32_t hcs_after(const struct hcs_cache *cache, const uint8_t *stored, size_t stored_len,
                  const uint8_t *request, size_t request_len, const uint8_t *response, size_t response_len,
                  const struct hcs_time *now, uint8_t *form, size_t form_len, size_t *form_needed,
                  uint8_t *out, size_t out_len, size_t *needed);

/* Writes why the stored response answers a request at `now` or doesn't (RFC 9211, section 2).
   0; out has the member of Cache-Status for a cache with the name (member).
   HCS_MALFORMED only if stored is no stored form, or request no head of a request (malformed).
   HCS_FULL only if a header map can't hold the fields of the request (full).
   HCS_UNDATED is never returned (never_undated).
   HCS_TOO_SMALL only if out is shorter than *needed, the length of what it would hold (too_small).
   HCS_BAD_ARGUMENT only if the time is out of range, or the name isn't UTF-8 (bad_argument).
   After an error out is as it was (kept), and *needed is 0 but for HCS_TOO_SMALL (none_needed). */
int32_t hcs_explain(const struct hcs_cache *cache, const uint8_t *stored, size_t stored_len,
                    const uint8_t *request, size_t request_len, const struct hcs_time *now,
                    const uint8_t *name, size_t name_len, uint8_t *out, size_t out_len, size_t *needed);

/* Returns what allows the response to be stored, or writes what forbids it (RFC 7234, section 3).
   An enum hcs_permission (value); *obstacles has the bits of enum hcs_obstacle that apply (obstacles).
   HCS_MALFORMED only if stored is no stored form (malformed).
   No other error but HCS_NO_MEMORY is returned (others).
   After an error *obstacles is as it was (kept). */
int32_t hcs_storability(const uint8_t *stored, size_t stored_len, uint32_t *obstacles);

/* Writes the freshness lifetime of the stored response, and returns what decides it (RFC 7234,
   section 4.2.1).
   An enum hcs_source; *lifetime has the freshness lifetime (value).
   HCS_MALFORMED only if stored is no stored form (malformed).
   No other error but HCS_NO_MEMORY is returned (others).
   After an error *lifetime is as it was (kept). */
int32_t hcs_freshness(const uint8_t *stored, size_t stored_len, struct hcs_duration *lifetime);

/* Writes the current age of the stored response at `now` (RFC 7234, section 4.2.3).
   0; *out has the current age (value).
   HCS_MALFORMED only if stored is no stored form (malformed).
   HCS_BAD_ARGUMENT only if the time is out of range (bad_argument).
   No other error but HCS_NO_MEMORY is returned (others).
   After an error *out is as it was (kept). */
int32_t hcs_age(const uint8_t *stored, size_t stored_len, const struct hcs_time *now,
                struct hcs_duration *out);

/* Writes how much of the freshness lifetime is left at `now`, or zero (RFC 7234, section 4.2).
   0; *out has the time that is left (value).
   HCS_MALFORMED only if stored is no stored form (malformed).
   HCS_BAD_ARGUMENT only if the time is out of range (bad_argument).
   No other error but HCS_NO_MEMORY is returned (others).
   After an error *out is as it was (kept). */
int32_t hcs_time_to_live(const uint8_t *stored, size_t stored_len, const struct hcs_time *now,
                         struct hcs_duration *out);

/* Returns whether the stored response may be used for a request at `now` without validation.
   1 if it may, else 0 (value).
   HCS_MALFORMED only if stored is no stored form, or request no head of a request (malformed).
   HCS_FULL only if a header map can't hold the fields of the request (full).
   HCS_BAD_ARGUMENT only if the time is out of range (bad_argument).
   No other error but HCS_NO_MEMORY is returned (others). */
int32_t hcs_fresh_at(const struct hcs_cache *cache, const uint8_t *stored, size_t stored_len,
                     const uint8_t *request, size_t request_len, const struct hcs_time *now);

/* Returns whether the stored response may be used for a request at `now` without validation, as a
   cache looks it up (RFC 9111, sections 4 and 4.2.4): all lines of a field count, a HEAD is answered
   by what is stored for GET, and a stale response isn't used if it forbids that, whatever max-stale
   says.
   1 if it may, else 0 (value).
   HCS_MALFORMED only if stored is no stored form, or request no head of a request (malformed).
   HCS_FULL only if a header map can't hold the fields of the request (full).
   HCS_BAD_ARGUMENT only if the time is out of range (bad_argument).
   No other error but HCS_NO_MEMORY is returned (others). */
int32_t hcs_may_be_used(const struct hcs_cache *cache, const uint8_t *stored, size_t stored_len,
                        const uint8_t *request, size_t request_len, const struct hcs_time *now);

/* Returns which uses of the stale response are allowed for a request at `now` (RFC 5861).
   The bits of enum hcs_stale, or 0 for neither (value).
   HCS_MALFORMED only if stored is no stored form, or request no head of a request (malformed).
   HCS_FULL only if a header map can't hold the fields of the request (full).
   HCS_BAD_ARGUMENT only if the time is out of range (bad_argument).
   No other error but HCS_NO_MEMORY is returned (others). */
int32_t hcs_stale_use(const struct hcs_cache *cache, const uint8_t *stored, size_t stored_len,
                      const uint8_t *request, size_t request_len, const struct hcs_time *now);

/* Returns whether a 304 answers the preconditions of a request for which the stored response may be
   used (RFC 9110, section 13.2.2).
   1 if it does, else 0 (value).
   HCS_MALFORMED only if stored is no stored form, or request no head of a request (malformed).
   HCS_FULL only if a header map can't hold the fields of the request (full).
   No other error but HCS_NO_MEMORY is returned (others). */
int32_t hcs_is_not_modified_for(const struct hcs_cache *cache, const uint8_t *stored, size_t stored_len,
                                const uint8_t *request, size_t request_len);

/* Returns whether a response is a 304 that selects the stored response (RFC 9111, section 4.3.4).
   1 if it is, else 0 (value).
   HCS_MALFORMED only if stored is no stored form, or response no head of a response (malformed).
   HCS_FULL only if a header map can't hold the fields of the response (full).
   No other error but HCS_NO_MEMORY is returned (others). */
int32_t hcs_is_confirmed_by(const struct hcs_cache *cache, const uint8_t *stored, size_t stored_len,
                            const uint8_t *response, size_t response_len);

/* Writes the head of the stored response as it may be sent at `now`, fresh or stale: its status,
   every field line but hop-by-hop fields, and its Age (RFC 9111, sections 4.2.4 and 5.1).

   0; out has the head (head).
   HCS_MALFORMED only if stored is no stored form (malformed).
   HCS_FULL only if the fields have no room for Age (full).
   HCS_UNDATED is never returned (never_undated).
   HCS_TOO_SMALL only if out is shorter than *needed, the length of what it would hold (too_small).
   HCS_BAD_ARGUMENT only if the time is out of range (bad_argument).
   After an error out is as it was (kept), and *needed is 0 but for HCS_TOO_SMALL (none_needed). */
int32_t hcs_response_at(const uint8_t *stored, size_t stored_len, const struct hcs_time *now,
                        uint8_t *out, size_t out_len, size_t *needed);

/* Writes the head of a response with one field line for each name (RFC 9110, section 5.3), for
   hcs_new.
   0; out has the head (head).
   HCS_MALFORMED only if response is no head of a response (malformed).
   HCS_FULL only if a header map can't hold its fields (full).
   HCS_TOO_SMALL only if out is shorter than *needed, the length of what it would hold (too_small).
   No other error but HCS_NO_MEMORY is returned (others).
   After an error out is as it was (kept), and *needed is 0 but for HCS_TOO_SMALL (none_needed). */
int32_t hcs_joined(const struct hcs_cache *cache, const uint8_t *response, size_t response_len,
                   uint8_t *out, size_t out_len, size_t *needed);

/* Writes the head of a stored response updated with the fields of a received 304: they replace the
   stored fields of their names, and new names are added (RFC 9111, section 3.2).
   0; out has the head (head).
   HCS_MALFORMED only if one of the two is no head of a response (malformed).
   HCS_FULL only if a header map can't hold the fields of one, or of both (full).
   HCS_TOO_SMALL only if out is shorter than *needed, the length of what it would hold (too_small).
   No other error but HCS_NO_MEMORY is returned (others).
   After an error out is as it was (kept), and *needed is 0 but for HCS_TOO_SMALL (none_needed). */
int32_t hcs_updated(const struct hcs_cache *cache, const uint8_t *stored, size_t stored_len,
                    const uint8_t *received, size_t received_len, uint8_t *out, size_t out_len,
                    size_t *needed);

#ifdef __cplusplus
}
#endif
#endif
