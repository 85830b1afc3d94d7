/* Loads and frees every item of a message, as a program that reads messages
   with libcbor would. Gives the number of items loaded, none if one is not
   well-formed. */
#include <cbor.h>

size_t libcbor_load(const unsigned char *input, size_t length) {
  size_t loaded = 0;
  while (length > 0) {
    struct cbor_load_result result;
    cbor_item_t *item = cbor_load(input, length, &result);
    if (item == NULL) return 0;
    cbor_decref(&item);
    input += result.read;
    length -= result.read;
    loaded++;
  }
  return loaded;
}

/* The least that libcbor can do: its streaming decoder looks at every head and calls
   functions that do nothing. Gives the number of heads, none if one is not well-formed. */
size_t libcbor_stream(const unsigned char *input, size_t length) {
  size_t heads = 0;
  while (length > 0) {
    struct cbor_decoder_result result =
        cbor_stream_decode(input, length, &cbor_empty_callbacks, NULL);
    if (result.status != CBOR_DECODER_FINISHED) return 0;
    input += result.read;
    length -= result.read;
    heads++;
  }
  return heads;
}
