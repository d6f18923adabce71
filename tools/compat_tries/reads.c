/* The words of raw 16-bit samples, by libltc's calls: a line each, for tools/try_compat.
 *
 *     reads KIND PIECE APV < SAMPLES     KIND is u8, s16, u16, float or double: how the samples are handed over, PIECE
 *                                        at once; APV is the samples of a frame, as the decoder is told
 *
 * A line has the place at which the word begins and ends, backward or not, its 10 bytes, its time and date, and the
 * least and the greatest sample of 8 bits. It is built against libltc, and runs on what the loader finds. */
#include <ltc.h>
#include <stdint.h>
#include <stdio.h>
#include <stdlib.h>
#include <string.h>

enum { MOST = 1 << 16 };

static void write_piece(LTCDecoder *decoder, const char *kind, const int16_t *samples, size_t count, ltc_off_t at) {
    static unsigned char bytes[MOST];
    static unsigned short words[MOST];
    static short shorts[MOST];
    static float floats[MOST];
    static double doubles[MOST];
    for (size_t i = 0; i < count; i++) {
        bytes[i] = (unsigned char)((samples[i] + 32768) >> 8);
        words[i] = (unsigned short)(samples[i] + 32768);
        shorts[i] = samples[i];
        floats[i] = (float)samples[i] / 32768;
        doubles[i] = samples[i] / 32768.0;
    }
    if (strcmp(kind, "u8") == 0) {
        ltc_decoder_write(decoder, bytes, count, at);
    } else if (strcmp(kind, "u16") == 0) {
        ltc_decoder_write_u16(decoder, words, count, at);
    } else if (strcmp(kind, "float") == 0) {
        ltc_decoder_write_float(decoder, floats, count, at);
    } else if (strcmp(kind, "double") == 0) {
        ltc_decoder_write_double(decoder, doubles, count, at);
    } else {
        ltc_decoder_write_s16(decoder, shorts, count, at);
    }
}

static void print_word(LTCFrameExt *word) {
    unsigned char bytes[10];
    SMPTETimecode time;
    memset(&time, 0, sizeof time);
    memcpy(bytes, &word->ltc, sizeof bytes);
    ltc_frame_to_time(&time, &word->ltc, LTC_USE_DATE);
    printf("%lld %lld %d ", word->off_start, word->off_end, word->reverse != 0);
    for (size_t i = 0; i < sizeof bytes; i++) {
        printf("%02x", bytes[i]);
    }
    printf(" %02d:%02d:%02d:%02d %d %d %.2f\n", time.hours, time.mins, time.secs, time.frame, word->sample_min,
           word->sample_max, word->volume);
}

int main(int count, char **words) {
    static int16_t samples[MOST];
    size_t piece, got;
    ltc_off_t at = 0;
    LTCDecoder *decoder;
    LTCFrameExt word;
    if (count != 4 || (piece = strtoul(words[2], NULL, 10)) == 0 || piece > MOST) {
        return 2;
    }
    decoder = ltc_decoder_create(atoi(words[3]), 512);
    while ((got = fread(samples, sizeof *samples, piece, stdin)) > 0) {
        write_piece(decoder, words[1], samples, got, at);
        while (ltc_decoder_read(decoder, &word) == 1) {
            print_word(&word);
        }
        at += (ltc_off_t)got;
    }
    ltc_decoder_free(decoder);
    return 0;
}
