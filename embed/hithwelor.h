#ifndef HITHWELOR_H
#define HITHWELOR_H
#include <stddef.h>
#include <stdint.h>
#ifdef __cplusplus
extern "C" {
#endif

/* Answers words, between which stands a byte 0, on an input: writes the answer's text to the front of `output`, and
   gives the code of its status, as docs/use/formats.md lists them. `*taken` tells how many bytes the whole text has.

   8: `output` has room for fewer, and is filled with the text's front. A call with room for `*taken` bytes gives the
      answer. It comes exactly where `*taken` is greater than `output_length`.
   9: memory was wanting. `*taken` is 0, and `output` is as it was.
   Any other code is the answer's, and what stands behind the text in `output` is as it was. 7 never comes.

   N bytes 0 stand between N + 1 words, so a byte 0 at the end has an empty word behind it, and no bytes are one empty
   word. Words that aren't UTF-8 are answered as no words, with code 2. The input may hold any bytes.

   No pointer may be null, even where its length is 0. What `output` and `taken` point to overlaps nothing else. The call
   keeps nothing, and several threads may make it at once; a signal handler may not. It calls malloc, realloc and free. */
uint32_t hithwelor_answer(const uint8_t *words, size_t words_length, const uint8_t *input, size_t input_length,
                          uint8_t *output, size_t output_length, uint64_t *taken);

#ifdef __cplusplus
}
#endif
#endif
