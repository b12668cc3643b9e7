/* Prints the colour of a flat spectrum under light 2, read every 5 nm and every 10 nm, and shows two refused calls.
 *
 *   tools/build host
 *   gcc -Wall -Wextra -Werror -I include examples/host.c target/staticlib/libhost.a -o target/host && target/host
 *
 * prints
 *
 *   L 420000 a 0 b 0 u 0 v 0
 *   L 420000 a 0 b 0 u 0 v 0
 *   refused 16
 *   refused 1
 */
#include <inttypes.h>
#include <stdio.h>

#include "shade.h"

/* The signed number that 4 bytes are, the lowest first. */
static int32_t number_at(const uint8_t *bytes)
{
	int64_t n = (int64_t)bytes[0] | (int64_t)bytes[1] << 8 | (int64_t)bytes[2] << 16 | (int64_t)bytes[3] << 24;
	return (int32_t)(n > INT32_MAX ? n - ((int64_t)1 << 32) : n);
}

static void show(uint32_t light, const uint8_t *spectrum, size_t length)
{
	static const char names[] = "Labuv";
	uint8_t out[SHADE_ANSWER_LEN];
	uint32_t cause = shade_colour(light, spectrum, length, out, sizeof out);
	if (cause != 0) {
		printf("refused %" PRIu32 "\n", cause);
		return;
	}
	for (int i = 0; i < 5; i++)
		printf("%s%c %" PRId32, i == 0 ? "" : " ", names[i], number_at(out + 4 * i));
	printf("\n");
}

int main(void)
{
	uint8_t spectrum[SHADE_SPECTRUM_LEN];
	for (int i = 0; i < 81; i++) { /* a reflectance of 1/8 at every wavelength */
		spectrum[2 * i] = 1250 % 256;
		spectrum[2 * i + 1] = 1250 / 256;
	}
	show(SHADE_LIGHT_D65, spectrum, SHADE_SPECTRUM_LEN);
	show(SHADE_LIGHT_D65, spectrum, SHADE_SPECTRUM_10NM_LEN);
	show(3, spectrum, SHADE_SPECTRUM_LEN);
	show(SHADE_LIGHT_D65, spectrum, 100);
	return 0;
}
