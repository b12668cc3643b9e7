/* The colour of a spectrum, for a host program in C. */
#ifndef SHADE_H
#define SHADE_H

#include <stddef.h>
#include <stdint.h>

#ifdef __cplusplus
extern "C" {
#endif

#define SHADE_LIGHT_A 1
#define SHADE_LIGHT_D65 2

/* The bytes of a spectrum every 5 nm, of one every 10 nm, and of an answer. */
#define SHADE_SPECTRUM_LEN 162
#define SHADE_SPECTRUM_10NM_LEN 82
#define SHADE_ANSWER_LEN 20

/* The colour of a spectrum under a built-in light, with the 1931 observer.
 *
 * spectrum: 81 readings, 380 to 780 nm by 5 nm, or 41 by 10 nm, 2 bytes each,
 *           little-endian; spectrum_len, 162 or 82, tells which. A reading is
 *           a reflectance in 1/10,000, from 0 to 20,000, as in a shade book.
 *           (The frame stops at 12,000: there a brighter shade is refused.)
 * out:      L, a, b, u, v in 1/10,000, signed, 4 bytes each, little-endian,
 *           by GB/T 7921-1997 with the constants of CIE 15:2004.
 *
 * Answers 0, and only the first 20 bytes of out have changed; or the first
 * cause of this table, in its order, and out is as it was:
 *
 *   16  no such light   light is neither 1 nor 2
 *    1  short table     spectrum_len is neither 162 nor 82
 *    2  over-bright     a reading is above 20,000
 *   15  short buffer    out_len is below 20
 *
 * spectrum and out do not overlap. */
uint32_t shade_colour(uint32_t light, const uint8_t *spectrum, size_t spectrum_len, uint8_t *out, size_t out_len);

#ifdef __cplusplus
}
#endif

#endif
