/* libltc's encoder over the maker of cells of tc.h, which tells the intervals of bits. The samples of an interval,
 * their level and the rise at its edges are made here. */
#include "ltc.h"
#include "tc.h"
#include <limits.h>
#include <math.h>
#include <stdbool.h>
#include <stdlib.h>
#include <string.h>

/* Ticks of a cell, intervals of a byte at most, the sample of silence, and the greatest level beside it. */
enum { CELL = 16, BYTES = 10, BITS = 8, MOST = 2 * BITS, SILENCE = 128, FULL = 127 };

/* The rise time to begin with, in microseconds. */
#define RISE 40.0

struct LTCEncoder {
    tc_maker maker;
    LTCFrame frame;
    enum LTC_TV_STANDARD standard;
    int flags, fps;           /* frames a second, as a whole number */
    double sample_rate, cell; /* samples of a cell */
    double rest;              /* samples from the latest transition to its place, and the half that rounds it */
    double rise, share;       /* the rise time, and what a sample then goes of the way to its level */
    int level;                /* beside silence */
    bool high;                /* the latest interval lies above silence */
    ltcsnd_sample_t *samples;
    size_t size, filled; /* one of them is never filled, as in libltc */
};

static size_t up_to(size_t size, size_t boundary) { return (size + boundary - 1) / boundary * boundary; }

/* The size of a buffer for the samples of a frame, and 0 where the rates are none. */
static size_t size_for(double sample_rate, double fps) {
    double samples = sample_rate >= 0 && fps > 0 ? ceil(sample_rate / fps) : -1;
    return samples >= 0 && samples < INT_MAX ? 1 + (size_t)samples : 0;
}

static size_t room_of(const LTCEncoder *e) { return e->size - 1 - e->filled; }

void ltc_encoder_buffer_flush(LTCEncoder *e) { e->filled = 0; }

void ltc_encoder_reset(LTCEncoder *e) {
    ltc_encoder_buffer_flush(e);
    e->high = false;
    e->rest = 0.5;
}

/* The bits that tell how the user bits are used. */
static void set_group_flags(LTCEncoder *e) {
    unsigned date = (e->flags & LTC_USE_DATE) != 0, clock = (e->flags & LTC_TC_CLOCK) != 0;
    e->frame.col_frame = 0;
    e->frame.binary_group_flag_bit1 = clock;
    if (e->standard == LTC_TV_625_50) {
        e->frame.biphase_mark_phase_correction = 0; /* group flag 0 here */
        e->frame.binary_group_flag_bit0 = date;     /* and 2 */
    } else {
        e->frame.binary_group_flag_bit0 = 0;
        e->frame.binary_group_flag_bit2 = date;
    }
}

/* As in libltc, the flag by which they should be left alone is the one by which they are set. */
static void set_flags(LTCEncoder *e, double fps) {
    e->frame.dfbit = rint(100 * fps) == 2997;
    if (e->flags & LTC_BGF_DONT_TOUCH) {
        set_group_flags(e);
    }
    if (!(e->flags & LTC_NO_PARITY)) {
        ltc_frame_set_parity(&e->frame, e->standard);
    }
}

int ltc_encoder_reinit(LTCEncoder *e, double sample_rate, double fps, enum LTC_TV_STANDARD standard, int flags) {
    size_t size = size_for(sample_rate, fps);
    if (sample_rate < 1 || fps >= INT_MAX || size == 0 || size > e->size) {
        return -1;
    }
    e->sample_rate = sample_rate;
    e->fps = (int)rint(fps);
    e->cell = sample_rate / (fps * LTC_FRAME_BIT_COUNT);
    e->standard = standard;
    e->flags = flags;
    set_flags(e, fps);
    ltc_encoder_reset(e);
    ltc_encoder_set_filter(e, RISE);
    return 0;
}

/* Where there is no memory the encoder goes on with the buffer that it has. */
int ltc_encoder_set_buffersize(LTCEncoder *e, double sample_rate, double fps) {
    size_t size = size_for(sample_rate, fps);
    ltcsnd_sample_t *samples = size == 0 ? NULL : realloc(e->samples, size);
    ltc_encoder_buffer_flush(e);
    if (samples == NULL) {
        return -1;
    }
    e->samples = samples;
    e->size = size;
    return 0;
}

int ltc_encoder_set_bufsize(LTCEncoder *e, double sample_rate, double fps) {
    return ltc_encoder_set_buffersize(e, sample_rate, fps);
}

void ltc_encoder_free(LTCEncoder *e) {
    if (e != NULL) {
        free(e->samples);
        free(e);
    }
}

LTCEncoder *ltc_encoder_create(double sample_rate, double fps, enum LTC_TV_STANDARD standard, int flags) {
    LTCEncoder *e = aligned_alloc(TC_MAKER_BOUNDARY, up_to(sizeof *e, TC_MAKER_BOUNDARY));
    if (e == NULL) {
        return NULL;
    }
    memset(e, 0, sizeof *e);
    ltc_frame_reset(&e->frame);
    if (ltc_encoder_set_buffersize(e, sample_rate, fps) != 0 || !tc_maker_init(&e->maker, CELL, CELL, 0) ||
        ltc_encoder_set_volume(e, -3) != 0 || ltc_encoder_reinit(e, sample_rate, fps, standard, flags) != 0) {
        ltc_encoder_free(e);
        return NULL;
    }
    return e;
}

double ltc_encoder_get_volume(LTCEncoder *e) { return 20 * log10((double)e->level / FULL); }

int ltc_encoder_set_volume(LTCEncoder *e, double dBFS) {
    double level = dBFS <= 0 ? rint(FULL * pow(10, dBFS / 20)) : 0;
    if (level < 1) {
        return -1;
    }
    e->level = (int)level;
    return 0;
}

double ltc_encoder_get_filter(LTCEncoder *e) { return e->rise; }

/* The share is that of libltc. */
void ltc_encoder_set_filter(LTCEncoder *e, double rise_time) {
    e->rise = rise_time > 0 && isfinite(rise_time) ? rise_time : 0;
    e->share = e->rise > 0 ? 1 - exp(-2e6 * exp(1) / (e->sample_rate * e->rise)) : 1;
}

void ltc_encoder_set_frame(LTCEncoder *e, LTCFrame *f) { e->frame = *f; }

void ltc_encoder_get_frame(LTCEncoder *e, LTCFrame *f) { *f = e->frame; }

void ltc_encoder_set_timecode(LTCEncoder *e, SMPTETimecode *t) {
    ltc_time_to_frame(&e->frame, t, e->standard, e->flags);
}

void ltc_encoder_get_timecode(LTCEncoder *e, SMPTETimecode *t) { ltc_frame_to_time(t, &e->frame, e->flags); }

int ltc_encoder_inc_timecode(LTCEncoder *e) { return ltc_frame_increment(&e->frame, e->fps, e->standard, e->flags); }

int ltc_encoder_dec_timecode(LTCEncoder *e) { return ltc_frame_decrement(&e->frame, e->fps, e->standard, e->flags); }

void ltc_encoder_set_user_bits(LTCEncoder *e, unsigned long data) {
    e->frame.user1 = data & 15;
    e->frame.user2 = data >> 4 & 15;
    e->frame.user3 = data >> 8 & 15;
    e->frame.user4 = data >> 12 & 15;
    e->frame.user5 = data >> 16 & 15;
    e->frame.user6 = data >> 20 & 15;
    e->frame.user7 = data >> 24 & 15;
    e->frame.user8 = data >> 28 & 15;
}

/* Fills in the samples of an interval: from silence to its level, and back in the same way. */
static void put(LTCEncoder *e, size_t count) {
    ltcsnd_sample_t *samples = e->samples + e->filled, sample = SILENCE;
    e->high = !e->high;
    for (size_t i = 0; i < (count + 1) / 2; i++) {
        int level = e->high ? SILENCE + e->level : SILENCE - e->level;
        sample = (ltcsnd_sample_t)(sample + e->share * (level - sample));
        samples[i] = samples[count - 1 - i] = sample;
    }
    e->filled += count;
}

/* The bits of a byte in the other order. */
static unsigned turned(unsigned byte) {
    unsigned other = 0;
    for (int bit = 0; bit < BITS; bit++) {
        other |= (byte >> bit & 1) << (BITS - 1 - bit);
    }
    return other;
}

/* A byte is in the buffer as a whole, or nothing has changed. */
int ltc_encoder_encode_byte(LTCEncoder *e, int byte, double speed) {
    double ticks_in_sample = e->cell * fabs(speed) / CELL, rest = e->rest;
    unsigned char bytes[BYTES];
    uint32_t ticks[MOST];
    size_t counts[MOST], total = 0;
    tc_bits bits = {0, 0};
    tc_given given;
    if (byte < 0 || byte >= BYTES || !(fabs(speed) > 0)) {
        return -1;
    }
    memcpy(bytes, &e->frame, BYTES);
    bits.low = speed < 0 ? turned(bytes[byte]) : bytes[byte];
    given = tc_maker_bits(&e->maker, &bits, BITS, ticks, MOST);
    for (size_t i = 0; i < given.made; i++) {
        rest += ticks_in_sample * ticks[i];
        if (!(rest < (double)(room_of(e) - total) + 1)) {
            return -1;
        }
        counts[i] = (size_t)rest;
        rest -= (double)counts[i];
        total += counts[i];
    }
    for (size_t i = 0; i < given.made; i++) {
        put(e, counts[i]);
    }
    e->rest = rest;
    return 0;
}

void ltc_encoder_encode_frame(LTCEncoder *e) {
    for (int byte = 0; byte < BYTES; byte++) {
        ltc_encoder_encode_byte(e, byte, 1);
    }
}

void ltc_encoder_encode_reversed_frame(LTCEncoder *e) {
    for (int byte = BYTES - 1; byte >= 0; byte--) {
        ltc_encoder_encode_byte(e, byte, -1);
    }
}

/* Where its edges have a rise, the last transition holds to the end of the buffer, as that of libltc does. */
int ltc_encoder_end_encode(LTCEncoder *e) {
    if (room_of(e) == 0) {
        return -1;
    }
    put(e, e->rise > 0 ? room_of(e) : 1);
    return 0;
}

size_t ltc_encoder_get_buffersize(LTCEncoder *e) { return e->size; }

int ltc_encoder_get_bufferptr(LTCEncoder *e, ltcsnd_sample_t **buf, int flush) {
    int count = (int)e->filled;
    if (buf != NULL) {
        *buf = e->samples;
    }
    if (flush) {
        ltc_encoder_buffer_flush(e);
    }
    return count;
}

ltcsnd_sample_t *ltc_encoder_get_bufptr(LTCEncoder *e, int *size, int flush) {
    int count = ltc_encoder_get_bufferptr(e, NULL, flush);
    if (size != NULL) {
        *size = count;
    }
    return e->samples;
}

int ltc_encoder_copy_buffer(LTCEncoder *e, ltcsnd_sample_t *buf) {
    int count = ltc_encoder_get_bufferptr(e, NULL, 1);
    memcpy(buf, e->samples, (size_t)count);
    return count;
}

int ltc_encoder_get_buffer(LTCEncoder *e, ltcsnd_sample_t *buf) { return ltc_encoder_copy_buffer(e, buf); }
