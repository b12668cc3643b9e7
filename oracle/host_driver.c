/* Makes host calls for oracle/check. Each case on standard input is three 4-byte numbers (light,
   spectrum length, buffer length; native byte order), the spectrum's bytes and the
   buffer's bytes. For each, 8 bytes of result and the buffer's bytes go to standard output.
   Bytes around the buffer and the spectrum itself must stay as they were. */

#include "driver.h"
#include "shade.h"

int main(void)
{
    uint32_t head[3];
    while (take(head, sizeof head)) {
        size_t spectrum_len = head[1], out_len = head[2];
        uint8_t *spectrum = taken(spectrum_len), *kept = copied(spectrum, spectrum_len);
        uint8_t *out = taken(out_len);
        answer(shade_colour(head[0], inside(spectrum), spectrum_len, inside(out), out_len), out,
               out_len);
        must_be_kept(spectrum, kept, spectrum_len);
    }
    return 0;
}
