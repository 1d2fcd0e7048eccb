/* Prints the sizes of the structs and the offsets of their members, each on a line. */
#include <http_cache_semantics.h>
#include <stdio.h>

#define SIZE(type) printf(#type " %zu\n", sizeof(struct type))
#define AT(type, member) printf(#type "." #member " %zu\n", offsetof(struct type, member))

int main(void) {
  SIZE(hcs_cache);
  AT(hcs_cache, secret);
  AT(hcs_cache, more_secret);
  AT(hcs_cache, immutable_seconds);
  AT(hcs_cache, immutable_nanoseconds);
  AT(hcs_cache, heuristic_numerator);
  AT(hcs_cache, heuristic_denominator);
  AT(hcs_cache, shared);
  AT(hcs_cache, ignore_cargo_cult);
  AT(hcs_cache, form);
  SIZE(hcs_time);
  AT(hcs_time, seconds);
  AT(hcs_time, nanoseconds);
  SIZE(hcs_duration);
  AT(hcs_duration, seconds);
  AT(hcs_duration, nanoseconds);
  return 0;
}
