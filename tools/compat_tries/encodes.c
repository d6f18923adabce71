/* What libltc's encoder makes of calls at random: a line each, for tools/try_compat.
 *
 *     encodes calls COUNT SEED       COUNT encoders, and 40 calls of each: what a call gave, and what the buffer has
 *     encodes sound FRAMES SEED      a sound of FRAMES frames, of a count, a sample rate and a level at random: a line
 *                                    of its sample rate and frames a second; of each frame its 80 bits and its samples,
 *                                    of 8 bits, in hexadecimal digits; and the samples behind the last one
 *
 *     encodes edges 0 0              what is answered at the edges where the library differs from libltc
 *
 * It is built against libltc, and runs on what the loader finds. What compat/README.md names as a difference by intent
 * is asked for by `edges` alone: a byte that has no room, rates that are none, and so on. */
#include "chance.h"
#include <ltc.h>
#include <math.h>
#include <stdint.h>
#include <stdio.h>
#include <stdlib.h>
#include <string.h>

enum { CALLS = 40, RATES = 7, COUNTS = 9 };
static const double rates[RATES] = {8000, 22050, 32000, 44100, 48000, 96000, 192000};
static const double counts[COUNTS] = {24, 25, 30, 29.97, 30000.0 / 1001, 24000.0 / 1001, 23.976, 12.5, 39.5};

static double rate(void) { return below(4) != 0 ? rates[below(RATES)] : 1000 + below(200000) / 7.0; }
static double frames(void) { return below(4) != 0 ? counts[below(COUNTS)] : 5 + below(3400) / 100.0; }

static double speed(void) {
    static const double speeds[] = {1, -1, 2, -2, 0.5, 0.999, 1.001};
    double found = below(3) != 0 ? speeds[below(7)] : (1 + below(4000)) / 1000.0;
    return below(3) == 0 ? -found : found;
}

static void print_bytes(const void *place, size_t count) {
    const unsigned char *bytes = place;
    for (size_t i = 0; i < count; i++) {
        printf("%02x", bytes[i]);
    }
}

/* Each run of equal samples: so the line stays short. */
static void print_samples(LTCEncoder *encoder) {
    ltcsnd_sample_t *samples = NULL;
    int count = ltc_encoder_get_bufferptr(encoder, &samples, 0);
    printf(" %d of %zu:", count, ltc_encoder_get_buffersize(encoder));
    for (int i = 0, run = 1; i < count; i++, run++) {
        if (i + 1 == count || samples[i] != samples[i + 1]) {
            printf(" %d*%d", samples[i], run);
            run = 0;
        }
    }
    puts("");
}

static void any_frame(LTCEncoder *encoder) {
    LTCFrame frame;
    ltc_encoder_get_frame(encoder, &frame);
    for (size_t i = 0; i < 10; i++) {
        ((unsigned char *)&frame)[i] = (unsigned char)below(256);
    }
    ltc_encoder_set_frame(encoder, &frame);
}

/* A label of the count, and a date. */
static void any_time(LTCEncoder *encoder, double fps) {
    SMPTETimecode time = {"+0100", 0, 0, 0, 0, 0, 0, 0};
    time.years = (unsigned char)below(100);
    time.months = (unsigned char)(1 + below(12));
    time.days = (unsigned char)(1 + below(28));
    time.hours = (unsigned char)(below(2) ? 23 : below(24));
    time.mins = (unsigned char)(below(2) ? 59 : below(60));
    time.secs = (unsigned char)(below(2) ? 59 : below(60));
    time.frame = (unsigned char)(2 + below((unsigned)fps - 2));
    ltc_encoder_set_timecode(encoder, &time);
}

static void print_word(LTCEncoder *encoder) {
    LTCFrame frame;
    SMPTETimecode time;
    memset(&time, 0, sizeof time);
    ltc_encoder_get_frame(encoder, &frame);
    ltc_encoder_get_timecode(encoder, &time);
    print_bytes(&frame, 10);
    printf(" %s %d-%d-%d %d:%d:%d:%d", time.timezone, time.years, time.months, time.days, time.hours, time.mins,
           time.secs, time.frame);
}

/* A byte for which there is room. */
static void encode_byte(LTCEncoder *encoder, double samples_in_byte) {
    double by = speed();
    int byte = (int)below(12) - 1;
    double left = (double)ltc_encoder_get_buffersize(encoder) - ltc_encoder_get_bufferptr(encoder, NULL, 0);
    if (left < samples_in_byte * (by < 0 ? -by : by) + 3) {
        ltc_encoder_buffer_flush(encoder);
    }
    left = (double)ltc_encoder_get_buffersize(encoder);
    if (left < samples_in_byte * (by < 0 ? -by : by) + 3) {
        by = 0;
    }
    printf("byte %d by %g: %d", byte, by, ltc_encoder_encode_byte(encoder, byte, by));
}

static void fill(LTCEncoder *encoder, double samples_in_frame, int reversed) {
    printf("frame");
    ltc_encoder_buffer_flush(encoder);
    if ((double)ltc_encoder_get_buffersize(encoder) < samples_in_frame + 1) {
        return;
    }
    if (reversed) {
        ltc_encoder_encode_reversed_frame(encoder);
    } else {
        ltc_encoder_encode_frame(encoder);
    }
}

static void take(LTCEncoder *encoder, unsigned way) {
    static ltcsnd_sample_t samples[1 << 20];
    ltcsnd_sample_t *place = NULL;
    int count = -1;
    switch (way) {
    case 0:
        count = ltc_encoder_copy_buffer(encoder, samples);
        print_bytes(samples, count < 40 ? (size_t)count : 40);
        break;
    case 1:
        place = ltc_encoder_get_bufptr(encoder, &count, 0);
        printf("same place %d", place == ltc_encoder_get_bufptr(encoder, NULL, 1));
        break;
    default:
        count = ltc_encoder_get_bufferptr(encoder, NULL, (int)below(2));
    }
    printf(" took %d", count);
}

static void set_level(LTCEncoder *encoder) {
    double level = below(30) == 0 ? 1 : -(double)below(5000) / 100;
    int given = ltc_encoder_set_volume(encoder, level);
    printf("level %g: %d, %.9f", level, given, ltc_encoder_get_volume(encoder));
}

static void set_rise(LTCEncoder *encoder, double sample_rate) {
    static const double rises[] = {0, 5, 10, 40, 100, 250, 1000};
    double rise = below(2) ? rises[below(7)] : 5 + below(100000) / 97.0;
    ltc_encoder_set_filter(encoder, rise);
    printf("rise %g: %.4g", rise, rise * sample_rate > 1e6 ? ltc_encoder_get_filter(encoder) : 0);
}

static void try_encoder(void) {
    double sample_rate = rate(), fps = frames();
    enum LTC_TV_STANDARD standard = (enum LTC_TV_STANDARD)below(4);
    int flags = (int)below(16);
    LTCEncoder *encoder = ltc_encoder_create(sample_rate, fps, standard, flags);
    printf("new %.9g %.9g %d %d", sample_rate, fps, standard, flags);
    any_time(encoder, fps);
    for (int call = 0; call < CALLS; call++) {
        print_samples(encoder);
        switch (below(16)) {
        case 0:
            any_frame(encoder);
            break;
        case 1:
            any_time(encoder, fps);
            break;
        case 2:
            ltc_encoder_set_user_bits(encoder, (unsigned long)below(1u << 31) << 3 | below(8));
            break;
        case 3:
            any_time(encoder, fps);
            printf("next %d", ltc_encoder_inc_timecode(encoder));
            break;
        case 4:
            any_time(encoder, fps);
            printf("last %d", flags & LTC_NO_PARITY ? 0 : ltc_encoder_dec_timecode(encoder));
            break;
        case 5:
            set_level(encoder);
            break;
        case 6:
            set_rise(encoder, sample_rate);
            break;
        case 7:
            fill(encoder, sample_rate / fps, below(2) != 0);
            break;
        case 8:
            take(encoder, below(3));
            break;
        case 9:
            printf("end %d", ltc_encoder_end_encode(encoder));
            break;
        case 10:
            ltc_encoder_reset(encoder);
            break;
        case 11: {
            double other = rate(), few = frames();
            int given = ltc_encoder_reinit(encoder, other, few, standard, flags);
            printf("anew %.9g %.9g: %d", other, few, given);
            sample_rate = given == 0 ? other : sample_rate;
            fps = given == 0 ? few : fps;
            any_time(encoder, fps);
            break;
        }
        case 12: {
            double other = rate(), few = frames() / 4;
            printf("room %.9g %.9g: %d", other, few,
                   (below(2) ? ltc_encoder_set_buffersize : ltc_encoder_set_bufsize)(encoder, other, few));
            ltc_encoder_reset(encoder);
            break;
        }
        default:
            encode_byte(encoder, sample_rate / fps / 10);
        }
        printf(" ");
        print_word(encoder);
    }
    print_samples(encoder);
    ltc_encoder_free(encoder);
}

static void sound(unsigned long count) {
    double sample_rate = rates[2 + below(RATES - 2)], fps = counts[below(COUNTS - 2)];
    LTCEncoder *encoder = ltc_encoder_create(sample_rate, fps, LTC_TV_FILM_24, 0);
    ltcsnd_sample_t *samples = NULL;
    printf("%g %.9g\n", sample_rate, fps);
    any_time(encoder, fps);
    ltc_encoder_set_user_bits(encoder, (unsigned long)below(1u << 31) << 1);
    ltc_encoder_set_volume(encoder, -(double)below(25));
    ltc_encoder_set_filter(encoder, below(100));
    for (unsigned long i = 0; i < count; i++) {
        LTCFrame frame;
        int made;
        ltc_encoder_inc_timecode(encoder);
        ltc_encoder_get_frame(encoder, &frame);
        ltc_encoder_encode_frame(encoder);
        print_bytes(&frame, 10);
        printf(" ");
        made = ltc_encoder_get_bufferptr(encoder, &samples, 1);
        print_bytes(samples, (size_t)made);
        puts("");
    }
    printf("end %d ", ltc_encoder_end_encode(encoder));
    print_bytes(samples, (size_t)ltc_encoder_get_bufferptr(encoder, NULL, 1));
    puts("");
    ltc_encoder_free(encoder);
}

static void edges(void) {
    static const double numbers[] = {0, -1, 0.5, 1, 25, 48000, 1e9, 1e300, INFINITY, NAN};
    static const int bytes[] = {-2147483647 - 1, -1, 0, 9, 10, 2147483647};
    enum { NUMBERS = sizeof numbers / sizeof *numbers };
    LTCEncoder *encoder = ltc_encoder_create(48000, 29.97, LTC_TV_525_60, 0);
    LTCFrame frame;
    for (int i = 0; i < NUMBERS; i++) {
        for (int j = 0; j < NUMBERS; j++) {
            LTCEncoder *other = numbers[i] < 1e9 ? ltc_encoder_create(numbers[i], numbers[j], LTC_TV_525_60, 0) : NULL;
            printf("%d%d ", other != NULL, ltc_encoder_reinit(encoder, numbers[i], numbers[j], LTC_TV_525_60, 0) == 0);
            ltc_encoder_free(other);
        }
        printf("volume %d ", ltc_encoder_set_volume(encoder, -numbers[i]));
        ltc_encoder_set_filter(encoder, numbers[i]);
        printf("rise %g byte", ltc_encoder_get_filter(encoder));
        for (int k = 0; k < 6; k++) {
            printf(" %d", ltc_encoder_encode_byte(encoder, bytes[k], numbers[i]));
        }
        printf(" fill %d\n", ltc_encoder_get_bufferptr(encoder, NULL, 1));
    }
    ltc_encoder_free(encoder);
    encoder = ltc_encoder_create(48000, 29.97, LTC_TV_525_60, 0);
    ltc_encoder_get_frame(encoder, &frame);
    print_bytes(&frame, 10);
    for (int byte = 0; byte < 11; byte++) {
        printf(" %d", ltc_encoder_encode_byte(encoder, byte % 10, 1));
    }
    printf(" fill %d", ltc_encoder_get_bufferptr(encoder, NULL, 0));
    printf(", then %d", ltc_encoder_encode_byte(encoder, 1, 0.001));
    printf(", end %d", ltc_encoder_end_encode(encoder));
    printf(" %d\n", ltc_encoder_end_encode(encoder));
    ltc_encoder_free(encoder);
    ltc_encoder_free(NULL);
}

int main(int count, char **words) {
    if (count != 4) {
        return 2;
    }
    begin(words[3]);
    if (strcmp(words[1], "sound") == 0) {
        sound(strtoul(words[2], NULL, 10));
        return 0;
    }
    if (strcmp(words[1], "edges") == 0) {
        edges();
        return 0;
    }
    for (unsigned long i = strtoul(words[2], NULL, 10); i > 0; i--) {
        try_encoder();
    }
    return 0;
}
