/* Sound of linear time code made and read by libltc, another project's encoder and decoder, for sound.sh.
 *
 *     sound make FPS RATE FRAMES [ADDRESS [own]] > SAMPLES 2> WORDS
 *                            frames from 01:00:00:00 or the address on, and the address and user bits of each, a line each; with `own` no two
 *                            frames have the same user bits, so that a word which two of them make together at a cut is none that was made
 *     sound fall DB < SAMPLES > SAMPLES                    a level that falls evenly by DB decibels, from the first sample to the last
 *     sound drop|click PLACES < SAMPLES > SAMPLES
 *                            at PLACES random places: silence of 10 to 100 ms at 48,000 samples a second, or one to six samples at full scale
 *     sound cut PLACES FRAMES [SEED] < SAMPLES > SAMPLES 2> WHOLE
 *                            at PLACES random places 1 to 800 samples are left out of a sound of FRAMES frames; and which frames are whole, by
 *                            their places from 1 on, a line each
 *     sound read FPS RATE < SAMPLES > WORDS                what libltc's decoder reads
 *
 * Samples are raw: 16 bits with a sign, little endian, one channel. Build: cc -O2 -o sound sound.c -lltc -lm
 */
#include <ltc.h>
#include <math.h>
#include <stdint.h>
#include <stdio.h>
#include <stdlib.h>
#include <string.h>

static void put_sample(int sample) {
    putchar(sample & 0xff);
    putchar((sample >> 8) & 0xff);
}

/* The user bits of a frame of its own, by its place: the factor is odd, so no two are alike. */
static unsigned long own_bits(long place) {
    return (unsigned long)(place + 1) * 2654435761 & 0xffffffff;
}

static void put_word(const SMPTETimecode *time, unsigned long user, FILE *out) {
    fprintf(out, "%02d:%02d:%02d:%02d %08lx\n", time->hours, time->mins, time->secs, time->frame, user);
}

static void make(double fps, double rate, long frames, const char *address, int own) {
    LTCEncoder *encoder = ltc_encoder_create(1, 1, LTC_TV_625_50, 0);
    ltc_encoder_set_buffersize(encoder, rate, fps);
    ltc_encoder_reinit(encoder, rate, fps, fps == 25 ? LTC_TV_625_50 : LTC_TV_525_60, 0);
    ltc_encoder_set_volume(encoder, -3.0);
    ltc_encoder_set_filter(encoder, 40.0);
    unsigned long user = own ? own_bits(0) : 0x2a5f19c3;
    ltc_encoder_set_user_bits(encoder, user);
    SMPTETimecode start;
    memset(&start, 0, sizeof start);
    unsigned hours, minutes, seconds, frame;
    if (sscanf(address, "%u:%u:%u:%u", &hours, &minutes, &seconds, &frame) != 4) {
        fputs("an address is hh:mm:ss:ff\n", stderr);
        exit(2);
    }
    start.hours = (unsigned char)hours;
    start.mins = (unsigned char)minutes;
    start.secs = (unsigned char)seconds;
    start.frame = (unsigned char)frame;
    ltc_encoder_set_timecode(encoder, &start);
    for (long i = 0; i < frames; i++) {
        SMPTETimecode now;
        ltcsnd_sample_t *samples;
        ltc_encoder_get_timecode(encoder, &now);
        put_word(&now, user, stderr);
        ltc_encoder_encode_frame(encoder);
        int count = ltc_encoder_get_bufferptr(encoder, &samples, 1);
        for (int k = 0; k < count; k++) put_sample(((int)samples[k] - 128) * 256);
        if (own) ltc_encoder_set_user_bits(encoder, user = own_bits(i + 1));
        // (which sets the parity of all the bits, too)
        ltc_encoder_inc_timecode(encoder);
    }
    ltc_encoder_free(encoder);
}

/* All samples of the input. */
static int16_t *all_samples(size_t *count) {
    size_t room = 1 << 20;
    unsigned char *bytes = malloc(room);
    size_t length = 0, more;
    while ((more = fread(bytes + length, 1, room - length, stdin)) > 0) {
        length += more;
        if (length == room) bytes = realloc(bytes, room *= 2);
    }
    int16_t *samples = malloc(length + 2);
    *count = length / 2;
    for (size_t i = 0; i < *count; i++) samples[i] = (int16_t)(bytes[2 * i] | bytes[2 * i + 1] << 8);
    free(bytes);
    return samples;
}

static void fall(double decibels) {
    size_t count;
    int16_t *samples = all_samples(&count);
    for (size_t i = 0; i < count; i++)
        put_sample((int)lrint(samples[i] * pow(10, -decibels * i / count / 20)));
    free(samples);
}

/* The next number of a generator that is the same everywhere, below a bound. */
static uint64_t state = 20261129;

static size_t chance(size_t bound) {
    state = state * 16807 % 2147483647;
    return state % bound;
}

/* Which of the frames of a sound, one as long as the other, have none of the samples that are gone. */
static void put_whole(const char *gone, size_t count, size_t frames) {
    for (size_t frame = 0; frame < frames; frame++) {
        size_t from = count * frame / frames, to = count * (frame + 1) / frames;
        if (!memchr(gone + from, 1, to - from)) fprintf(stderr, "%zu\n", frame + 1);
    }
}

static void hurt(const char *how, long places, long frames) {
    size_t count;
    int16_t *samples = all_samples(&count);
    char *gone = calloc(count, 1);
    for (long i = 0; i < places && count > 4800; i++) {
        size_t at = chance(count - 4800);
        if (!strcmp(how, "drop")) {
            size_t many = 480 + chance(4320);
            memset(samples + at, 0, many * sizeof *samples);
        } else if (!strcmp(how, "click")) {
            int16_t level = chance(2) ? 32000 : -32000;
            for (size_t many = 1 + chance(6); many > 0; many--) samples[at + many] = level;
        } else memset(gone + at, 1, 1 + chance(800));
    }
    if (frames > 0) put_whole(gone, count, (size_t)frames);
    for (size_t i = 0; i < count; i++)
        if (!gone[i]) put_sample(samples[i]);
    free(gone);
    free(samples);
}

static void read_words(double fps, double rate) {
    size_t count;
    int16_t *samples = all_samples(&count);
    LTCDecoder *decoder = ltc_decoder_create((int)(rate / fps), 64);
    LTCFrameExt frame;
    for (size_t at = 0; at < count; at += 1024) {
        size_t some = count - at < 1024 ? count - at : 1024;
        ltc_decoder_write_s16(decoder, samples + at, some, (ltc_off_t)at);
        while (ltc_decoder_read(decoder, &frame)) {
            SMPTETimecode time;
            ltc_frame_to_time(&time, &frame.ltc, 0);
            put_word(&time, ltc_frame_get_user_bits(&frame.ltc), stdout);
        }
    }
    ltc_decoder_free(decoder);
    free(samples);
}

int main(int argc, char **argv) {
    int own = argc == 7 && !strcmp(argv[6], "own");
    if ((argc == 5 || argc == 6 || own) && !strcmp(argv[1], "make"))
        make(atof(argv[2]), atof(argv[3]), atol(argv[4]), argc >= 6 ? argv[5] : "01:00:00:00", own);
    else if (argc == 3 && !strcmp(argv[1], "fall")) fall(atof(argv[2]));
    else if (argc == 3 && (!strcmp(argv[1], "drop") || !strcmp(argv[1], "click"))) hurt(argv[1], atol(argv[2]), 0);
    else if ((argc == 4 || argc == 5) && !strcmp(argv[1], "cut")) {
        if (argc == 5) state = (uint64_t)atol(argv[4]);
        hurt(argv[1], atol(argv[2]), atol(argv[3]));
    }
    else if (argc == 4 && !strcmp(argv[1], "read")) read_words(atof(argv[2]), atof(argv[3]));
    else {
        fputs("usage: sound make FPS RATE FRAMES [ADDRESS [own]] | sound fall DB | sound drop|click PLACES | sound cut PLACES FRAMES [SEED] | sound read FPS RATE\n", stderr);
        return 2;
    }
    return 0;
}
