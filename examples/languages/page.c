/* Stores a page, and sends it again four seconds later without asking the origin server. */
#include <http_cache_semantics.h>
#include <stdio.h>

#define HEAD(text) (const uint8_t *)(text), sizeof(text) - 1

static const char request[] = "GET /page HTTP/1.1\r\nHost: example.com\r\n\r\n";
static const char response[] = "HTTP/1.1 200 OK\r\nCache-Control: max-age=10\r\n\r\n";

int main(void) {
  struct hcs_time received = {1704067200, 0}, now = {1704067204, 0};
  uint8_t stored[4096], head[4096];
  size_t stored_len, len;
  struct hcs_cache cache;
  hcs_defaults(&cache);

  if (hcs_new(&cache, HEAD(request), HEAD(response), &received, stored, sizeof stored, &stored_len) != 1) return 1;
  if (hcs_fresh_at(&cache, stored, stored_len, HEAD(request), &now) == 1 &&
      hcs_response_at(stored, stored_len, &now, head, sizeof head, &len) == 0) {
    fwrite(head, 1, len, stdout); /* and the stored body after it */
  }
  return 0;
}
