/* What libltc's calls for words make of COUNT words at random: a line each, for tools/try_compat.
 *
 *     frames COUNT SEED
 *
 * The words are labels of 24, 25, 30 and 30 drop-frame with a date that is one, and bits at random, of which only the
  * reading calls are given. It is built against libltc, and runs on what the loader finds. */
#include "chance.h"
#include <ltc.h>
#include <stdint.h>
#include <stdio.h>
#include <stdlib.h>
#include <string.h>

/* A number below count: often the least or the greatest. */
static unsigned char edge(unsigned count) {
    return (unsigned char)(below(4) != 0 ? below(count) : below(2) * (count - 1));
}

static void print_bits(const char *name, const LTCFrame *frame) {
    unsigned char bytes[10];
    memcpy(bytes, frame, sizeof bytes);
    printf("%s ", name);
    for (size_t i = 0; i < sizeof bytes; i++) {
        printf("%02x", bytes[i]);
    }
}

static void print_time(LTCFrame *frame, int flags) {
    SMPTETimecode time;
    memset(&time, 0, sizeof time);
    ltc_frame_to_time(&time, frame, flags);
    printf(" %s %d-%d-%d %d:%d:%d:%d", time.timezone, time.years, time.months, time.days, time.hours, time.mins,
           time.secs, time.frame);
}

static void any_bits(LTCFrame *frame) {
    for (size_t i = 0; i < 10; i++) {
        ((unsigned char *)frame)[i] = (unsigned char)below(256);
    }
}

static void try_bits(void) {
    LTCFrame frame;
    memset(&frame, 0, sizeof frame);
    any_bits(&frame);
    print_bits("bits", &frame);
    print_time(&frame, (int)below(2));
    printf(" user %lx groups %d %d", ltc_frame_get_user_bits(&frame),
           ltc_frame_parse_bcg_flags(&frame, LTC_TV_525_60), ltc_frame_parse_bcg_flags(&frame, LTC_TV_625_50));
    ltc_frame_set_parity(&frame, (enum LTC_TV_STANDARD)below(4));
    print_bits(" parity", &frame);
    /* One draw a statement: C leaves open in which order arguments are worked out. */
    double samples = below(100000) / 17.0;
    printf(" alignment %lld\n", ltc_frame_alignment(samples, (enum LTC_TV_STANDARD)below(4)));
}

static void try_label(void) {
    static const int rates[] = {24, 25, 30, 30};
    unsigned kind = below(4), fps = (unsigned)rates[kind];
    enum LTC_TV_STANDARD standard = (enum LTC_TV_STANDARD)below(4);
    int flags = (int)below(2);
    LTCFrame frame, next;
    SMPTETimecode time;
    memset(&frame, 0, sizeof frame);
    memset(&time, 0, sizeof time);
    any_bits(&frame);
    frame.dfbit = kind == 3;
    char sign = below(2) ? '+' : '-';
    unsigned hours = below(13), minutes = 30 * below(2);
    snprintf(time.timezone, sizeof time.timezone, "%c%02u%02u", sign, hours, minutes);
    time.years = edge(100);
    time.months = (unsigned char)(1 + edge(12));
    time.days = (unsigned char)(1 + edge(28));
    time.hours = edge(24);
    time.mins = edge(60);
    time.secs = edge(60);
    time.frame = edge(fps);
    if (kind == 3 && time.secs == 0 && time.frame < 2 && time.mins % 10 != 0) {
        time.frame = 2;
    }
    ltc_time_to_frame(&frame, &time, standard, flags);
    print_bits("label", &frame);
    print_time(&frame, flags);
    next = frame;
    printf(" %d", ltc_frame_increment(&next, (int)fps, standard, flags));
    print_bits("", &next);
    next = frame;
    printf(" %d", ltc_frame_decrement(&next, (int)fps, standard, flags));
    print_bits("", &next);
    printf(" at %u\n", fps);
}

int main(int count, char **words) {
    LTCFrame frame;
    if (count != 3) {
        return 2;
    }
    begin(words[2]);
    memset(&frame, 0, sizeof frame);
    ltc_frame_reset(&frame);
    print_bits("reset", &frame);
    puts("");
    for (unsigned long i = strtoul(words[1], NULL, 10); i > 0; i--) {
        if (below(4) == 0) {
            try_bits();
        } else {
            try_label();
        }
    }
    return 0;
}
