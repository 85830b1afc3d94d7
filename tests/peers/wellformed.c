/* libcbor's view of some bytes. Reads lines of hex, each a sequence of CBOR
   items, and writes a line for each: "malformed", or the items in the order of
   their heads, as tests/reading/src/appendix.rs describes. */
#include <cbor.h>
#include <math.h>
#include <stdint.h>
#include <stdio.h>
#include <stdlib.h>
#include <string.h>

static void put_bytes(char name, const unsigned char *bytes, size_t length) {
  printf(" %c", name);
  for (size_t k = 0; k < length; k++) printf("%s%02x", k ? "" : " ", bytes[k]);
}

/* A string of either kind; one of indefinite length is joined from its chunks. */
static void put_string(const cbor_item_t *item) {
  int text = cbor_isa_string(item);
  int whole = text ? cbor_string_is_definite(item) : cbor_bytestring_is_definite(item);
  size_t chunks = whole ? 1 : text ? cbor_string_chunk_count(item) : cbor_bytestring_chunk_count(item);
  unsigned char *joined = NULL;
  size_t length = 0;
  for (size_t k = 0; k < chunks; k++) {
    const cbor_item_t *chunk = whole ? item : text ? cbor_string_chunks_handle(item)[k] : cbor_bytestring_chunks_handle(item)[k];
    size_t more = text ? cbor_string_length(chunk) : cbor_bytestring_length(chunk);
    const unsigned char *from = text ? cbor_string_handle(chunk) : cbor_bytestring_handle(chunk);
    joined = realloc(joined, length + more + 1);
    if (more > 0) memcpy(joined + length, from, more);
    length += more;
  }
  put_bytes(text ? 't' : 'b', joined, length);
  free(joined);
}

static void put(const cbor_item_t *item) {
  switch (cbor_typeof(item)) {
  case CBOR_TYPE_UINT:
    printf(" u %llu", (unsigned long long)cbor_get_int(item));
    break;
  case CBOR_TYPE_NEGINT:
    printf(" n %llu", (unsigned long long)cbor_get_int(item));
    break;
  case CBOR_TYPE_BYTESTRING:
  case CBOR_TYPE_STRING:
    put_string(item);
    break;
  case CBOR_TYPE_ARRAY:
    printf(" a %zu", cbor_array_size(item));
    for (size_t k = 0; k < cbor_array_size(item); k++) put(cbor_array_handle(item)[k]);
    break;
  case CBOR_TYPE_MAP:
    printf(" m %zu", cbor_map_size(item));
    for (size_t k = 0; k < cbor_map_size(item); k++) {
      put(cbor_map_handle(item)[k].key);
      put(cbor_map_handle(item)[k].value);
    }
    break;
  case CBOR_TYPE_TAG: {
    cbor_item_t *tagged = cbor_tag_item(item);
    printf(" g %llu", (unsigned long long)cbor_tag_value(item));
    put(tagged);
    cbor_decref(&tagged);
    break;
  }
  case CBOR_TYPE_FLOAT_CTRL:
    if (cbor_float_ctrl_is_ctrl(item)) {
      printf(" s %d", cbor_ctrl_value(item));
    } else {
      double value = cbor_float_get_float(item);
      uint64_t bits;
      memcpy(&bits, &value, sizeof bits);
      if (isnan(value)) printf(" f nan");
      else printf(" f %016llx", (unsigned long long)bits);
    }
    break;
  }
}

int main(void) {
  static char line[65536];
  static unsigned char input[32768];
  while (fgets(line, sizeof line, stdin)) {
    size_t length = strcspn(line, "\n") / 2, at = 0;
    for (size_t k = 0; k < length; k++) {
      char pair[3] = {line[2 * k], line[2 * k + 1], 0};
      input[k] = (unsigned char)strtoul(pair, NULL, 16);
    }
    /* First all items, so that nothing is written of a sequence cut short. */
    int malformed = 0;
    while (at < length && !malformed) {
      struct cbor_load_result result;
      cbor_item_t *item = cbor_load(input + at, length - at, &result);
      malformed = item == NULL;
      if (item) cbor_decref(&item);
      at += result.read;
    }
    if (malformed) printf("malformed");
    else for (at = 0; at < length;) {
      struct cbor_load_result result;
      cbor_item_t *item = cbor_load(input + at, length - at, &result);
      put(item);
      cbor_decref(&item);
      at += result.read;
    }
    printf("\n");
  }
  return 0;
}
