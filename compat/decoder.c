/* libltc's decoder over the reader of tc.h. */
#include "ltc.h"
#include "tc.h"
#include <limits.h>
#include <math.h>
#include <stdlib.h>
#include <string.h>

/* Ticks of a sample, samples that are turned into 16 bits at once, and room for the events of one call, which so stops
 * behind the sample that brings some. */
enum { FINENESS = 16, PIECE = 1024, ROOM = 2 };

/* Three readers take each sample, and a word is told by the first that has it. One reads the samples, at any speed. The
 * others read sums of the latest five and seven, in which hiss weighs less, at up to twice the speed. They go on in
 * turn by STEP samples, in which there is hardly more than a word. */
enum { READERS = 3, STEP = 256 };

struct LTCDecoder {
    tc_reader readers[READERS];
    uint64_t began[READERS]; /* how many samples the decoder had taken when a reader was started */
    LTCFrameExt *queue;      /* a ring of `size`, the oldest at head */
    size_t size, head, count;
    uint64_t taken;          /* samples */
    uint64_t told;           /* where the latest word ended, in ticks since the first sample */
    short low, high;         /* of the samples since the word before */
};

/* Each system's words are read as those of 30 frames: the fields lie alike in all of them, and the bits come back as
 * they were. The thresholds follow the level at a quarter of it, which reads dull sound too, down to 60 dB below full
 * scale. */
static const tc_settings settings[READERS] = {
    {30, 2, 2, 32, FINENESS, 1, 0},
    {30, 2, 2, 32 * 5, FINENESS, 5, 0},
    {30, 2, 2, 32 * 7, FINENESS, 7, 0},
};

static void forget_levels(LTCDecoder *d) {
    d->low = SHRT_MAX;
    d->high = SHRT_MIN;
}

LTCDecoder *ltc_decoder_create(int apv, int queue_size) {
    LTCDecoder *d = aligned_alloc(TC_READER_BOUNDARY,
                                  (sizeof *d + TC_READER_BOUNDARY - 1) / TC_READER_BOUNDARY * TC_READER_BOUNDARY);
    (void)apv; /* the reader finds the speed by itself */
    if (d == NULL) {
        return NULL;
    }
    memset(d, 0, sizeof *d);
    d->size = queue_size < 1 ? 1 : (size_t)queue_size;
    d->queue = calloc(d->size, sizeof *d->queue);
    if (d->queue == NULL) {
        ltc_decoder_free(d);
        return NULL;
    }
    for (int which = 0; which < READERS; which++) {
        if (!tc_reader_init(&d->readers[which], &settings[which])) {
            ltc_decoder_free(d);
            return NULL;
        }
    }
    forget_levels(d);
    return d;
}

int ltc_decoder_free(LTCDecoder *d) {
    if (d == NULL) {
        return 1;
    }
    free(d->queue);
    free(d);
    return 0;
}

static unsigned bit(unsigned flags, unsigned flag) { return (flags & flag) != 0; }

/* The 80 bits of a word of 30 frames. */
static void set_bits(LTCFrame *frame, const tc_event *event) {
    SMPTETimecode time = {"+0000", 0, 0, 0, event->hours, event->minutes, event->seconds, event->frames};
    ltc_frame_reset(frame);
    frame->dfbit = bit(event->flags, TC_BIT_10);
    frame->col_frame = bit(event->flags, TC_COLOUR);
    frame->binary_group_flag_bit0 = bit(event->flags, TC_BGF0);
    frame->binary_group_flag_bit1 = bit(event->flags, TC_BGF1);
    frame->binary_group_flag_bit2 = bit(event->flags, TC_BGF2);
    frame->user1 = event->user & 15;
    frame->user2 = event->user >> 4 & 15;
    frame->user3 = event->user >> 8 & 15;
    frame->user4 = event->user >> 12 & 15;
    frame->user5 = event->user >> 16 & 15;
    frame->user6 = event->user >> 20 & 15;
    frame->user7 = event->user >> 24 & 15;
    frame->user8 = event->user >> 28 & 15;
    ltc_time_to_frame(frame, &time, LTC_TV_525_60, 0); /* an even number of its bits is 0 */
    frame->biphase_mark_phase_correction ^= !bit(event->flags, TC_BALANCED);
}

static ltcsnd_sample_t eight_bits(short sample) { return (ltcsnd_sample_t)((sample + 32768) >> 8); }

/* Puts a word into the queue, if it is not told yet: the middle of one that another reader had lies before the end of
 * the word that was told. Where the queue is full the oldest word goes. A sum of samples is late by half of them. first
 * is where the decoder's first sample lies. */
static void put(LTCDecoder *d, const tc_event *event, int which, ltc_off_t first) {
    LTCFrameExt *frame = &d->queue[(d->head + d->count) % d->size];
    uint64_t late = FINENESS * (settings[which].smooth - 1) / 2;
    uint64_t end = d->began[which] * FINENESS + event->tick - (event->tick < late ? event->tick : late);
    uint64_t begin = end < event->length ? 0 : end - event->length;
    if (end - event->length / 2 < d->told) {
        return;
    }
    d->told = end;
    if (d->count == d->size) {
        d->head = (d->head + 1) % d->size;
    } else {
        d->count++;
    }
    memset(frame, 0, sizeof *frame);
    set_bits(&frame->ltc, event);
    frame->off_end = first + (ltc_off_t)(end / FINENESS) - 1; /* the next word begins behind it */
    frame->off_start = first + (ltc_off_t)(begin / FINENESS);
    frame->reverse = event->direction == TC_BACKWARD ? (int)(event->length / FINENESS) : 0;
    for (int bit = 0; bit < LTC_FRAME_BIT_COUNT; bit++) {
        frame->biphase_tics[bit] = (float)(frame->off_end - frame->off_start + 1) / LTC_FRAME_BIT_COUNT;
    }
    frame->sample_min = eight_bits(d->low);
    frame->sample_max = eight_bits(d->high);
    frame->volume = 20 * log10((frame->sample_max - frame->sample_min) / 255.0);
    forget_levels(d);
}

/* Gives a reader samples, of which the first is the decoder's sample number `place`, up to one that brings a word: how
 * many. The word is in *word, whose kind is TC_WORD then. */
static size_t take(LTCDecoder *d, int which, const short *samples, size_t count, uint64_t place, tc_event *word) {
    size_t at = 0;
    word->kind = 0;
    while (at < count && word->kind != TC_WORD) {
        tc_event events[ROOM];
        tc_taken taken = tc_reader_write_s16(&d->readers[which], samples + at, count - at, events, ROOM);
        at += taken.used;
        for (size_t i = 0; i < taken.made && word->kind != TC_WORD; i++) {
            *word = events[i];
        }
        if (taken.full) { /* after more than two days of code: the word that runs is lost */
            tc_reader_start(&d->readers[which], &settings[which]);
            d->began[which] = place + at;
        }
    }
    return at;
}

static void hear_levels(LTCDecoder *d, const short *samples, size_t count) {
    for (size_t i = 0; i < count; i++) {
        d->low = samples[i] < d->low ? samples[i] : d->low;
        d->high = samples[i] > d->high ? samples[i] : d->high;
    }
}

/* Reads 16-bit samples, of which the first lies at posinfo: up to each word of the first reader, and then the same
 * samples by the others. */
void ltc_decoder_write_s16(LTCDecoder *d, short *buf, size_t size, ltc_off_t posinfo) {
    if (d == NULL || buf == NULL) {
        return;
    }
    ltc_off_t first = posinfo - (ltc_off_t)d->taken; /* where the decoder's first sample lies */
    for (size_t at = 0; at < size;) {
        tc_event word, summed;
        size_t count = take(d, 0, buf + at, size - at < STEP ? size - at : STEP, d->taken, &word);
        hear_levels(d, buf + at, count);
        for (int which = 1; which < READERS; which++) {
            for (size_t done = 0; done < count;) {
                done += take(d, which, buf + at + done, count - done, d->taken + done, &summed);
                if (summed.kind == TC_WORD) {
                    put(d, &summed, which, first);
                }
            }
        }
        if (word.kind == TC_WORD) {
            put(d, &word, 0, first);
        }
        at += count;
        d->taken += count;
    }
}

static short of_eight(ltcsnd_sample_t sample) { return (short)((sample - 128) * 256); }

static short of_unsigned(unsigned short sample) { return (short)(sample - 32768); }

/* What is beyond the full scale is at it, and what is no number is silence. */
static short of_double(double sample) {
    if (!(sample == sample)) {
        return 0;
    }
    return (short)(sample >= 1 ? 32767 : sample <= -1 ? -32767 : sample * 32767);
}

#define WRITES(name, type, turned)                                                                                     \
    void name(LTCDecoder *d, type *buf, size_t size, ltc_off_t posinfo) {                                              \
        short samples[PIECE];                                                                                          \
        for (size_t at = 0; buf != NULL && at < size;) {                                                               \
            size_t count = size - at < PIECE ? size - at : PIECE;                                                      \
            for (size_t i = 0; i < count; i++) {                                                                       \
                samples[i] = turned(buf[at + i]);                                                                      \
            }                                                                                                          \
            ltc_decoder_write_s16(d, samples, count, posinfo + (ltc_off_t)at);                                         \
            at += count;                                                                                               \
        }                                                                                                              \
    }
WRITES(ltc_decoder_write, ltcsnd_sample_t, of_eight)
WRITES(ltc_decoder_write_u16, unsigned short, of_unsigned)
WRITES(ltc_decoder_write_float, float, of_double)
WRITES(ltc_decoder_write_double, double, of_double)

int ltc_decoder_read(LTCDecoder *d, LTCFrameExt *frame) {
    if (d == NULL || frame == NULL) {
        return -1;
    }
    if (d->count == 0) {
        return 0;
    }
    *frame = d->queue[d->head];
    d->head = (d->head + 1) % d->size;
    d->count--;
    return 1;
}

void ltc_decoder_queue_flush(LTCDecoder *d) { d->count = 0; }

int ltc_decoder_queue_length(LTCDecoder *d) { return (int)d->count; }
