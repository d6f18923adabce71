/* ltc.h: the names of libltc 1.3, which libltc-tc.so.11 serves, written anew from the documentation of its calls.
 *
 * A program that was built with libltc's own header runs on libltc-tc.so.11 unchanged: the functions have the same
 * names and the objects the same layout. README.md tells where they differ. The layout is that of machines with the
 * least significant byte first. */
#ifndef LTC_H
#define LTC_H 1
#include <stddef.h>
#ifdef __cplusplus
extern "C" {
#endif

#define LIBLTC_VERSION "1.3.2"
#define LIBLTC_VERSION_MAJOR 1
#define LIBLTC_VERSION_MINOR 3
#define LIBLTC_VERSION_MICRO 2
#define LIBLTC_CUR 13
#define LIBLTC_REV 0
#define LIBLTC_AGE 2

#define LTC_FRAME_BIT_COUNT 80

typedef unsigned char ltcsnd_sample_t; /* 8 bits, 128 is silence */
typedef long long int ltc_off_t;       /* a place in the sound, in samples */

/* The 80 bits of a word, bit 0 first. */
typedef struct LTCFrame {
    unsigned int frame_units : 4;
    unsigned int user1 : 4;

    unsigned int frame_tens : 2;
    unsigned int dfbit : 1;
    unsigned int col_frame : 1;
    unsigned int user2 : 4;

    unsigned int secs_units : 4;
    unsigned int user3 : 4;

    unsigned int secs_tens : 3;
    unsigned int biphase_mark_phase_correction : 1;
    unsigned int user4 : 4;

    unsigned int mins_units : 4;
    unsigned int user5 : 4;

    unsigned int mins_tens : 3;
    unsigned int binary_group_flag_bit0 : 1;
    unsigned int user6 : 4;

    unsigned int hours_units : 4;
    unsigned int user7 : 4;

    unsigned int hours_tens : 2;
    unsigned int binary_group_flag_bit1 : 1;
    unsigned int binary_group_flag_bit2 : 1;
    unsigned int user8 : 4;

    unsigned int sync_word : 16;
} LTCFrame;

/* Where the polarity correction and the binary group flags stand. */
enum LTC_TV_STANDARD { LTC_TV_525_60, LTC_TV_625_50, LTC_TV_1125_60, LTC_TV_FILM_24 };

enum LTC_BG_FLAGS {
    LTC_USE_DATE = 1,       /* the user bits are a date */
    LTC_TC_CLOCK = 2,       /* of the encoder: the label is the time of day */
    LTC_BGF_DONT_TOUCH = 4, /* of the encoder: sets the binary group flags, as in libltc, against its documentation */
    LTC_NO_PARITY = 8       /* the polarity correction stays as it is */
};

/* A word that was read. */
typedef struct LTCFrameExt {
    LTCFrame ltc;
    ltc_off_t off_start;                      /* the sample at which it begins */
    ltc_off_t off_end;                        /* and the one at which it ends */
    int reverse;                              /* its samples where it was played backward, and else 0 */
    float biphase_tics[LTC_FRAME_BIT_COUNT];  /* samples of each bit: here a mean */
    ltcsnd_sample_t sample_min, sample_max;   /* the least and the greatest sample since the word before */
    double volume;                            /* in dB of full scale, of both */
} LTCFrameExt;

/* A time of day, and a date of two digits. */
typedef struct SMPTETimecode {
    char timezone[6]; /* "+HHMM" */
    unsigned char years, months, days;
    unsigned char hours, mins, secs, frame;
} SMPTETimecode;

typedef struct LTCDecoder LTCDecoder;
typedef struct LTCEncoder LTCEncoder;

LTCDecoder *ltc_decoder_create(int apv, int queue_size);
int ltc_decoder_free(LTCDecoder *d);
void ltc_decoder_write(LTCDecoder *d, ltcsnd_sample_t *buf, size_t size, ltc_off_t posinfo);
void ltc_decoder_write_double(LTCDecoder *d, double *buf, size_t size, ltc_off_t posinfo);
void ltc_decoder_write_float(LTCDecoder *d, float *buf, size_t size, ltc_off_t posinfo);
void ltc_decoder_write_s16(LTCDecoder *d, short *buf, size_t size, ltc_off_t posinfo);
void ltc_decoder_write_u16(LTCDecoder *d, unsigned short *buf, size_t size, ltc_off_t posinfo);
int ltc_decoder_read(LTCDecoder *d, LTCFrameExt *frame);
void ltc_decoder_queue_flush(LTCDecoder *d);
int ltc_decoder_queue_length(LTCDecoder *d);

LTCEncoder *ltc_encoder_create(double sample_rate, double fps, enum LTC_TV_STANDARD standard, int flags);
void ltc_encoder_free(LTCEncoder *e);
int ltc_encoder_reinit(LTCEncoder *e, double sample_rate, double fps, enum LTC_TV_STANDARD standard, int flags);
void ltc_encoder_reset(LTCEncoder *e);
void ltc_encoder_set_timecode(LTCEncoder *e, SMPTETimecode *t);
void ltc_encoder_get_timecode(LTCEncoder *e, SMPTETimecode *t);
void ltc_encoder_set_user_bits(LTCEncoder *e, unsigned long data);
int ltc_encoder_inc_timecode(LTCEncoder *e);
int ltc_encoder_dec_timecode(LTCEncoder *e);
void ltc_encoder_set_frame(LTCEncoder *e, LTCFrame *f);
void ltc_encoder_get_frame(LTCEncoder *e, LTCFrame *f);
double ltc_encoder_get_volume(LTCEncoder *e);
int ltc_encoder_set_volume(LTCEncoder *e, double dBFS);
double ltc_encoder_get_filter(LTCEncoder *e);
void ltc_encoder_set_filter(LTCEncoder *e, double rise_time);
int ltc_encoder_encode_byte(LTCEncoder *e, int byte, double speed);
void ltc_encoder_encode_frame(LTCEncoder *e);
void ltc_encoder_encode_reversed_frame(LTCEncoder *e);
int ltc_encoder_end_encode(LTCEncoder *e);
int ltc_encoder_set_buffersize(LTCEncoder *e, double sample_rate, double fps);
int ltc_encoder_set_bufsize(LTCEncoder *e, double sample_rate, double fps);
size_t ltc_encoder_get_buffersize(LTCEncoder *e);
int ltc_encoder_get_bufferptr(LTCEncoder *e, ltcsnd_sample_t **buf, int flush);
ltcsnd_sample_t *ltc_encoder_get_bufptr(LTCEncoder *e, int *size, int flush);
int ltc_encoder_copy_buffer(LTCEncoder *e, ltcsnd_sample_t *buf);
int ltc_encoder_get_buffer(LTCEncoder *e, ltcsnd_sample_t *buf);
void ltc_encoder_buffer_flush(LTCEncoder *e);

void ltc_frame_to_time(SMPTETimecode *stime, LTCFrame *frame, int flags);
void ltc_time_to_frame(LTCFrame *frame, SMPTETimecode *stime, enum LTC_TV_STANDARD standard, int flags);
void ltc_frame_reset(LTCFrame *frame);
int ltc_frame_increment(LTCFrame *frame, int fps, enum LTC_TV_STANDARD standard, int flags);
int ltc_frame_decrement(LTCFrame *frame, int fps, enum LTC_TV_STANDARD standard, int flags);
void ltc_frame_set_parity(LTCFrame *frame, enum LTC_TV_STANDARD standard);
int ltc_frame_parse_bcg_flags(LTCFrame *frame, enum LTC_TV_STANDARD standard);
unsigned long ltc_frame_get_user_bits(LTCFrame *f);
ltc_off_t ltc_frame_alignment(double samples_per_frame, enum LTC_TV_STANDARD standard);

#ifdef __cplusplus
}
#endif
#endif
