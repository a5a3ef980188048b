/* cilvedroz: the bytes that a terminal sends for a key press. */
#ifndef CILVEDROZ_H
#define CILVEDROZ_H

#include <stddef.h>
#include <stdint.h>

#ifdef __cplusplus
extern "C" {
#endif

/*
 * Writes the bytes of a key press to the front of `out`, and answers their count.
 *
 *   place         the key by its place in KeyCode: 0 Char, 1 Hyper, .. 30 UpArrow, .. 59 Function, .. 89
 *                 InternalPasteEnd
 *   number        the character's number, if the key is Char; the number on the key, if it is Function; of any
 *                 other key it is not looked at
 *   modifiers     a set: 1 SHIFT, 2 ALT, 4 CTRL, 8 SUPER, 16 LEFT_ALT, 32 RIGHT_ALT, 64 LEFT_CTRL,
 *                 128 RIGHT_CTRL, 256 LEFT_SHIFT, 512 RIGHT_SHIFT, 1024 ENHANCED_KEY, added up
 *   encoding      0 Xterm, 1 CsiU, 2 Win32, 3 Kitty (without flags)
 *   application_cursor_keys, newline_mode
 *                 modes of the terminal: 0 is off, any other number on
 *   other_given   0 if xterm's modifyOtherKeys is not set, any other number if it is
 *   other         its value; where it is not set, it is not looked at
 *   is_down       0 for a key that goes up, any other number for one that goes down
 *   out, out_len  the output and its length; `out` must point at `out_len` bytes that may be written, and is not
 *                 NULL even where `out_len` is 0
 *
 * A key that goes up sends nothing: the answer is 0, whatever else is asked. For a key that goes down the causes
 * of a refusal are looked for in this order, and the first gives the answer:
 *
 *   -100   `place` is over 89, or `encoding` over 3
 *     -7   `modifiers` is over 2047
 *     -8   Char, and `number` is no Unicode scalar value
 *     -9   Function, and `number` is 0 or over 24
 *    -10   the output is shorter than the bytes; 15 always suffice
 *
 * A refusal leaves the output as it was. Otherwise no byte of it past the count is touched.
 *
 * CTRL and the up arrow:
 *
 *     uint8_t out[16];
 *     int32_t count = cilvedroz_encode(30, 0, 4, 0, 0, 0, 0, 0, 1, out, sizeof out);
 *     // count is 6, and out begins with 1B 5B 31 3B 35 41: ESC [ 1 ; 5 A
 */
int32_t cilvedroz_encode(uint32_t place, uint32_t number, uint32_t modifiers, uint32_t encoding,
                         uint32_t application_cursor_keys, uint32_t newline_mode, uint32_t other_given,
                         int64_t other, uint32_t is_down, uint8_t *out, size_t out_len);

#ifdef __cplusplus
}
#endif

#endif
