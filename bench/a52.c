/* `a52 <IN >OUT` decodes frames by liba52, each as if it were the first, and `a52 IN OUT` as those of one stream. For each there
   is a line "channels acmod" on standard error, and its samples come out as floats, block by block and channel by channel. It ends
   with 1 at a frame that liba52 doesn't take or whose CRC words are wrong. */
#include <stdint.h>
#include <stdio.h>
#include <stdlib.h>
#include <a52dec/a52.h>

static unsigned crc(const uint8_t *bytes, int count)
{
    static unsigned table[256];
    if (table[1] == 0)
        for (int i = 0; i < 256; i++) {
            unsigned entry = i << 8;
            for (int b = 0; b < 8; b++)
                entry = (entry << 1 ^ (entry & 0x8000 ? 0x8005 : 0)) & 0xffff;
            table[i] = entry;
        }
    unsigned sum = 0;
    for (int i = 0; i < count; i++)
        sum = (sum << 8 & 0xffff) ^ table[sum >> 8 ^ bytes[i]];
    return sum;
}

int main(int words, char **word)
{
    int stream = words == 3;
    if (stream && (!freopen(word[1], "rb", stdin) || !freopen(word[2], "wb", stdout)))
        return 1;
    a52_state_t *state = NULL;
    static uint8_t buffer[3840 + 8];
    for (int number = 0; fread(buffer, 1, 7, stdin) == 7; number++) {
        int flags, rate, bits;
        int size = a52_syncinfo(buffer, &flags, &rate, &bits);
        if (size == 0 || size > 3840 || fread(buffer + 7, 1, size - 7, stdin) != (size_t)size - 7) {
            fprintf(stderr, "frame %d: no syncinfo, or cut\n", number);
            return 1;
        }
        int count = size / 2, first = (count / 2 + count / 8) * 2;
        if (crc(buffer + 2, first - 2) || crc(buffer + 2, size - 2)) {
            fprintf(stderr, "frame %d: CRC\n", number);
            return 1;
        }
        if (state == NULL)
            state = a52_init(0);
        sample_t level = 1;
        int asked = flags & (A52_CHANNEL_MASK | A52_LFE);
        if (a52_frame(state, buffer, &asked, &level, 0)) {
            fprintf(stderr, "frame %d: a52_frame\n", number);
            return 1;
        }
        a52_dynrng(state, NULL, NULL);
        static const int full[] = {2, 1, 2, 3, 3, 4, 4, 5};
        int channels = full[flags & 7] + !!(flags & A52_LFE);
        fprintf(stderr, "%d %d\n", channels, flags & 7);
        for (int b = 0; b < 6; b++) {
            if (a52_block(state)) {
                fprintf(stderr, "frame %d: a52_block %d\n", number, b);
                return 1;
            }
            float out[6 * 256];
            sample_t *samples = a52_samples(state);
            for (int i = 0; i < 256 * channels; i++)
                out[i] = samples[i];
            fwrite(out, 4, 256 * channels, stdout);
        }
        if (!stream) {
            a52_free(state);
            state = NULL;
        }
    }
    return 0;
}
