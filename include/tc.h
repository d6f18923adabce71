/* tc.h: linear time code for C11 and C++17, by proved code: it is read from samples or from intervals of a tape,
 * samples are sliced into intervals, words become frames, labels and MIDI Time Code, and words become intervals and
 * samples. Lines of vertical interval time code are read and made as well.
 *
 * No function here allocates, keeps global state, waits, prints or ends the process. An object, such as a reader or a
 * flywheel, lies in the caller's memory, and its size is fixed: memcpy makes a copy that goes on from the same place,
 * and nothing has to be freed. One object serves one call at a time; different objects may serve different threads.
 *
 * What a caller has to keep: no pointer is NULL, not even if its count is 0; it points to at least as many elements as
 * the count says; only the library writes them during the call; and what is written overlaps nothing that is read.
 *
 * A tick is a part of a sample: a sample has `fineness` of them, and tick 0 is at the first sample. Of a tape it is the
 * unit of its intervals, and tick 0 is at the beginning of the first. */
#ifndef TC_H
#define TC_H
#include <stdbool.h>
#include <stddef.h>
#include <stdint.h>
#ifdef __cplusplus
#define TC_ALIGN(bytes) alignas(bytes)
extern "C" {
#else
#define TC_ALIGN(bytes) _Alignas(bytes)
#endif

/* The version of this header, to be tested by #if: 10200 is 1.2.0. */
#define TC_VERSION_MAJOR 1
#define TC_VERSION_MINOR 2
#define TC_VERSION_PATCH 0
#define TC_VERSION (10000 * TC_VERSION_MAJOR + 100 * TC_VERSION_MINOR + TC_VERSION_PATCH)

/* The version of these functions in this header, and in the library that was loaded: they have to be the same. The
 * names of the shared library are TC_1's. */
#define TC_ABI 1
uint32_t tc_abi(void);

/* How a sound is read. A number that is not named here is refused. */
typedef struct tc_settings {
    uint32_t system;    /* frames a second: 24, 25 or 30, which reads 29.97 and drop-frame counting too */
    uint32_t tolerance; /* how much cells may differ: 0 normal, 1 worn, 2 rough */
    uint32_t follows;   /* the threshold: 0 fixed, 1 at half of the level, 2 at a quarter of it */
    uint32_t threshold; /* the fixed one, or the least to which it falls, in units of a sum: 1 to 524272 */
    uint32_t fineness;  /* ticks of a sample: 1 to 64 */
    uint32_t smooth;    /* what is read is the sum of this many latest samples: 1 to 16 */
    uint32_t pace;      /* 0: an interval is read when it has ended, so a silence is told of when it is over. Else it is
                           read as it passes, in pieces of this many ticks, 1 to 16777215: a quarter of a frame, say */
} tc_settings;

/* What was read. */
enum { TC_WORD = 1, TC_REFUSED = 2, TC_LOST = 3 };
enum { TC_FORWARD = 0, TC_BACKWARD = 1 };
enum { TC_COUNT_24 = 0, TC_COUNT_25 = 1, TC_COUNT_30 = 2, TC_COUNT_30_DROP = 3 };
enum { TC_ALONE = 12 };
enum { TC_BIT_10 = 1, TC_COLOUR = 2, TC_BGF0 = 4, TC_BGF1 = 8, TC_BGF2 = 16, TC_BALANCED = 32 };
typedef struct tc_event {
    uint8_t kind;      /* a word, 80 cells that end in a sync word and have a fault, or a break of the code */
    uint8_t direction; /* of a word, and of a refused one */
    uint8_t detail;    /* word: its count. Refused: its fault, 1 frame units, 2 frames, 3 second units, 4 second tens,
                          5 minute units, 6 minute tens, 7 hour units, 8 hours, 9 a dropped label; or TC_ALONE, a word
                          without a witness, of a tape whose settings ask for one */
    uint8_t flags;     /* word: the bits above */
    uint8_t hours, minutes, seconds, frames; /* word: its label */
    uint32_t user;     /* word: its user bits, group 1 as the least significant */
    uint32_t zero;     /* 0 */
    uint64_t tick;     /* where it ends */
    uint64_t length;   /* word: the ticks of its 80 cells. Break: the place of its interval, from 0 */
} tc_event;            /* a field that says nothing of its kind of event is 0 */

/* What a call took and gave. */
typedef struct tc_taken {
    size_t used; /* elements taken, from the front */
    size_t made; /* events, or of a slicer intervals, written, from the front */
    bool full;   /* nothing more is taken: 2 to the 50th samples, or a thousand million intervals. Start anew */
} tc_taken;

/* ---- the library's own form of an object: where its state lies. The functions whose names end in an underscore, and
 * those that ask for bytes and boundaries, are for this header and for other languages. In C call those below */
typedef struct tc_handle {
    void *at;
} tc_handle;
size_t tc_reader_bytes(void);
size_t tc_reader_boundary(void);
void tc_reader_at(void *room, tc_handle *handle);
bool tc_reader_start_(tc_handle *handle, const tc_settings *settings);
tc_taken tc_reader_write_s16_(tc_handle *handle, const int16_t *samples, size_t count, tc_event *events, size_t room);
uint64_t tc_reader_told_(tc_handle *handle);

/* ---- a reader: samples in, events out */
#define TC_READER_BYTES 4096
#define TC_READER_BOUNDARY 16
typedef struct tc_reader {
    TC_ALIGN(TC_READER_BOUNDARY) unsigned char state[TC_READER_BYTES];
} tc_reader;

/* Begins anew with these settings, and tells whether they are taken. If they are not, nothing changes. The reader was
 * made by tc_reader_init before, or copied from one that was. */
static inline bool tc_reader_start(tc_reader *reader, const tc_settings *settings) {
    tc_handle handle = {reader->state};
    return tc_reader_start_(&handle, settings);
}

/* Makes a reader, before its first sample, and tells whether the settings are taken. If they are not, it may not be
 * used. It is false too if the library has another interface than this header. */
static inline bool tc_reader_init(tc_reader *reader, const tc_settings *settings) {
    tc_handle handle;
    if (tc_abi() != TC_ABI || tc_reader_bytes() > TC_READER_BYTES || tc_reader_boundary() > TC_READER_BOUNDARY) {
        return false;
    }
    tc_reader_at(reader->state, &handle);
    return tc_reader_start_(&handle, settings);
}

/* Takes samples from the front, and writes the events that they bring, in order, as long as there is room for two more:
 * with a room of 0 or 1 it takes nothing, writes nothing, and leaves the reader as it was. Behind the events that are
 * made no element changes. If room - made < 2, samples may be left: call again with those. In whatever pieces the
 * samples come, the events are the same. */
static inline tc_taken tc_reader_write_s16(tc_reader *reader, const int16_t *samples, size_t count, tc_event *events,
                                           size_t room) {
    tc_handle handle = {reader->state};
    return tc_reader_write_s16_(&handle, samples, count, events, room);
}

/* Up to which tick all words are told: one that is told later ends at this tick or behind it, whatever samples follow.
 * A flywheel that is told the words of a call, and then this tick by tc_wheel_pass, refuses none. It is the end of the
 * last interval that was read: with a pace of 0 it stands still during a silence, and else it goes on by such pieces.
 * The reader does not change. */
static inline uint64_t tc_reader_told(tc_reader *reader) {
    tc_handle handle = {reader->state};
    return tc_reader_told_(&handle);
}

/* ---- a slicer: samples in, intervals out, for a reader of a tape */

/* How a sound is sliced. The first five are those of tc_settings, and a number that is not named here is refused. */
typedef struct tc_slicer_settings {
    uint32_t follows;   /* the threshold: 0 fixed, 1 at half of the level, 2 at a quarter of it */
    uint32_t threshold; /* the fixed one, or the least to which it falls, in units of a sum: 1 to 524272 */
    uint32_t fineness;  /* ticks of a sample: 1 to 64 */
    uint32_t smooth;    /* what is sliced is the sum of this many latest samples: 1 to 16 */
    uint32_t pace;      /* 0: an interval is given when it has ended. Else as it passes, in pieces of this many ticks, 1
                           to 16777215: a quarter of a frame, say */
    uint32_t start;     /* where the first interval begins: 0 at the first sample, so that ticks count from there, as
                           those of tc_reader; 1 at the first crossing */
} tc_slicer_settings;

/* The library's own form of it. */
size_t tc_slicer_bytes(void);
size_t tc_slicer_boundary(void);
void tc_slicer_at(void *room, tc_handle *handle);
bool tc_slicer_start_(tc_handle *handle, const tc_slicer_settings *settings);
tc_taken tc_slicer_write_s16_(tc_handle *handle, const int16_t *samples, size_t count, uint32_t *ticks, size_t room);

#define TC_SLICER_BYTES 512
#define TC_SLICER_BOUNDARY 16
typedef struct tc_slicer {
    TC_ALIGN(TC_SLICER_BOUNDARY) unsigned char state[TC_SLICER_BYTES];
} tc_slicer;

/* Begins anew, as tc_reader_start does. */
static inline bool tc_slicer_start(tc_slicer *slicer, const tc_slicer_settings *settings) {
    tc_handle handle = {slicer->state};
    return tc_slicer_start_(&handle, settings);
}

/* Makes a slicer, before its first sample, as tc_reader_init makes a reader. */
static inline bool tc_slicer_init(tc_slicer *slicer, const tc_slicer_settings *settings) {
    tc_handle handle;
    if (tc_abi() != TC_ABI || tc_slicer_bytes() > TC_SLICER_BYTES || tc_slicer_boundary() > TC_SLICER_BOUNDARY) {
        return false;
    }
    tc_slicer_at(slicer->state, &handle);
    return tc_slicer_start_(&handle, settings);
}

/* Takes samples from the front, and writes the intervals that they bring, in ticks, in order, as long as there is room:
 * with a room of 0 it takes nothing and leaves the slicer as it was. Behind the intervals that are made no element
 * changes. If made == room, samples or intervals may be left: call again with the samples that are left, or none. In
 * whatever pieces the samples come, the intervals are the same. It is `full` after 2 to the 50th samples. */
static inline tc_taken tc_slicer_write_s16(tc_slicer *slicer, const int16_t *samples, size_t count, uint32_t *ticks,
                                           size_t room) {
    tc_handle handle = {slicer->state};
    return tc_slicer_write_s16_(&handle, samples, count, ticks, room);
}

/* ---- a reader of a tape: intervals in, events out */

/* How a tape is read. A number that is not named here is refused. */
typedef struct tc_tape_settings {
    uint32_t system;    /* frames a second: 24, 25 or 30, which reads 29.97 and drop-frame counting too */
    uint32_t tolerance; /* how much cells may differ: 0 normal, 1 worn, 2 rough */
    uint32_t firm;      /* 0: each word is told. 1: a word needs a witness, which is another word's sync word beside it,
                           or the edge of the code; without one it is refused as TC_ALONE. 2: a word needs a witness, or
                           the word that follows it on the tape: one that is beside it and has the next label. 3: a word needs
                           one that counts on with it, the word before it or what comes next; else it is TC_ALONE */
} tc_tape_settings;

/* What a call took and gave. */
typedef struct tc_tape_taken {
    size_t used;  /* intervals taken, from the front */
    size_t made;  /* events written, from the front */
    bool full;    /* nothing more is taken: a thousand million intervals. Start anew */
    bool refused; /* the next number is no interval, and is never taken: 0, or above 16777215 */
} tc_tape_taken;

/* The library's own form of it. */
size_t tc_tape_bytes(void);
size_t tc_tape_boundary(void);
void tc_tape_at(void *room, tc_handle *handle);
bool tc_tape_start_(tc_handle *handle, const tc_tape_settings *settings);
tc_tape_taken tc_tape_write_(tc_handle *handle, const uint32_t *ticks, size_t count, tc_event *events, size_t room);
size_t tc_tape_last_(tc_handle *handle, tc_event *events, size_t room);
uint64_t tc_tape_told_(tc_handle *handle);

#define TC_TAPE_BYTES 4096
#define TC_TAPE_BOUNDARY 16
typedef struct tc_tape {
    TC_ALIGN(TC_TAPE_BOUNDARY) unsigned char state[TC_TAPE_BYTES];
} tc_tape;

/* Begins anew, as tc_reader_start does. */
static inline bool tc_tape_start(tc_tape *tape, const tc_tape_settings *settings) {
    tc_handle handle = {tape->state};
    return tc_tape_start_(&handle, settings);
}

/* Makes a reader of a tape, before its first interval, as tc_reader_init makes one of samples. */
static inline bool tc_tape_init(tc_tape *tape, const tc_tape_settings *settings) {
    tc_handle handle;
    if (tc_abi() != TC_ABI || tc_tape_bytes() > TC_TAPE_BYTES || tc_tape_boundary() > TC_TAPE_BOUNDARY) {
        return false;
    }
    tc_tape_at(tape->state, &handle);
    return tc_tape_start_(&handle, settings);
}

/* Takes intervals, in ticks from 1 to 16777215, from the front, and writes the events that they bring, in order, as
 * long as there is room for three more, or for four where `firm` is 2: with less room it takes nothing, writes nothing,
 * and leaves the reader as it was. Behind the events that are made no element changes. If it leaves less room than
 * that, intervals may be left: call again with those. In whatever pieces the intervals come, the events are the same.
 * If words need a witness, one that is read backward is told 16 cells after its end, or where its
 * stretch or the tape ends. Where `firm` is 2, one that is
 * read forward and has no witness is told with the next event; where it is 3, one that does not count on from the word
 * before it. */
static inline tc_tape_taken tc_tape_write(tc_tape *tape, const uint32_t *ticks, size_t count, tc_event *events,
                                          size_t room) {
    tc_handle handle = {tape->state};
    return tc_tape_write_(&handle, ticks, count, events, room);
}

/* Writes the events that come if the tape ends here, 3 at most, or 4 where `firm` is 2, and gives their number. Together
 * with those before they are the events of the tape. The reader does not change, and may go on. With less room than
 * tc_tape_write needs it writes none. */
static inline size_t tc_tape_last(tc_tape *tape, tc_event *events, size_t room) {
    tc_handle handle = {tape->state};
    return tc_tape_last_(&handle, events, room);
}

/* Up to which tick all words are told, as tc_reader_told says it: one that waits for its witness, or for the word that
 * follows it, ends at this tick. */
static inline uint64_t tc_tape_told(tc_tape *tape) {
    tc_handle handle = {tape->state};
    return tc_tape_told_(&handle);
}

/* ---- labels: the frame addresses of a count. If the numbers are no label, a call gives false and changes nothing */
typedef struct tc_label {
    uint32_t count; /* TC_COUNT_24 and so on */
    uint32_t hours, minutes, seconds, frames;
} tc_label;

/* How many labels a day of the count has, and 0 if there is no such count. */
uint32_t tc_day_labels(uint32_t count);

/* How many labels of its count come before this one in its day: its place, from 0. */
bool tc_label_number(const tc_label *label, uint32_t *place);

/* The label of this place in the day of the count. False if the day has fewer labels. */
bool tc_label_at(uint32_t count, uint32_t place, tc_label *label);

/* Moves a label by a number of steps, backward if it is negative. At its end the day begins again. */
bool tc_label_advance(tc_label *label, int64_t steps);

/* ---- words and their bits */
typedef struct tc_word {
    tc_label label;
    uint32_t flags; /* TC_BIT_10 and so on: TC_BIT_10 is set with TC_COUNT_30_DROP, and not with TC_COUNT_30;
                       TC_BALANCED asks for an even number of zeros in the 80 bits */
    uint32_t user;  /* the user bits, group 1 as the least significant */
} tc_word;
typedef struct tc_bits {
    uint64_t low;  /* bits 0 to 63, bit 0, which comes first in time, as the least significant */
    uint64_t high; /* bits 64 to 79, the sync word, bit 64 as the least significant */
} tc_bits;

/* The 80 bits that spell the word. False if the numbers are no word, and then nothing changes. */
bool tc_word_bits(const tc_word *word, tc_bits *bits);

/* Reads a word of the system, 24, 25 or 30, from its 80 bits. It gives 0 if they spell one, and else the first fault,
 * and then nothing changes: TC_NO_SYNC if bits 64 to 79 are not the sync word; from 1 to 9 the fault of the fields, as
 * in tc_event; TC_NO_BITS if there is no such system, or a bit above 79 is set. */
enum { TC_NO_SYNC = 10, TC_NO_BITS = 11 };
uint32_t tc_bits_word(uint32_t system, const tc_bits *bits, tc_word *word);

/* ---- vertical interval time code: the runs of a line of picture, and its word */

/* Why a line says no word, beside the faults of its fields: a run is more than a quarter of a cell from each whole
 * number of cells, or the line has more than 90 cells with it; a sync pair is not 1 and 0; or the check fails. */
enum { TC_LINE_RUN = 13, TC_LINE_TOO_LONG = 14, TC_LINE_SYNC_PAIR = 15, TC_LINE_CHECK = 16 };
enum { TC_FIELD_MARK = 32 };
typedef struct tc_line {
    size_t place;   /* of a fault: the run, or the sync pair, from 0; or the residue of the check, 0 to 7 */
    uint32_t fault; /* 0 where the line says a word, or else its first fault: one of these, in this order, and behind
                       them one of the fields, 1 to 9, as in tc_event */
    tc_word word;   /* the word; among its flags TC_FIELD_MARK, the field mark, has the place of TC_BALANCED */
} tc_line;          /* what says nothing of a line is 0 */

/* Reads a line of `length` ticks, of a picture of 25 or 30 frames, from its runs in ticks: high and low by turns, the
 * first the high one of bit 0, the last the last high one. A cell lasts 1/115 of the line. False where there is no such
 * system, the length is not 460 to 65535, or the count is even or above 89, and then nothing changes. */
bool tc_line_read(uint32_t system, uint32_t length, const uint16_t *runs, size_t count, tc_line *line);

/* Writes the runs of the line of `length` ticks that says the word, and gives how many these are, 89 at most: they are
 * read as the word. Cell i begins at tick i times the length by 115, rounded down. 0 where the numbers are none of a
 * word at 25 or 30 frames, the length is not 460 to 65535, or the room is below 89, and then nothing changes. */
size_t tc_line_runs(const tc_word *word, uint32_t length, uint16_t *runs, size_t room);

/* ---- a flywheel: words and time in, frames out. If no word comes, it invents frames at the pace and in the direction
 * of the last one, up to a limit */

/* A word that was heard. */
typedef struct tc_heard {
    tc_label label;
    uint32_t direction; /* TC_FORWARD, TC_BACKWARD */
    uint64_t tick;      /* where it ended: below 2 to the 60th */
    uint64_t length;    /* how many ticks it lasted, the length of a frame: 1 to 4294967295 */
} tc_heard;

/* The word of an event, whose kind is TC_WORD. */
static inline tc_heard tc_heard_in(const tc_event *event) {
    tc_heard heard = {{event->detail, event->hours, event->minutes, event->seconds, event->frames}, event->direction,
                      event->tick, event->length};
    return heard;
}

/* What was given. */
enum { TC_HEARD = 1, TC_INVENTED = 2, TC_GONE = 3 };
typedef struct tc_frame {
    uint32_t kind;      /* a word was heard; one was due and none heard; or more were due than may be invented */
    uint32_t direction; /* heard, invented */
    uint32_t joined;    /* heard: 1 if its label is the next one after the word before and the frames invented since */
    uint32_t step;      /* invented: how many labels it lies after the word before, from 1 to the limit */
    tc_label label;     /* heard, invented */
    uint32_t zero;      /* 0 */
    uint64_t tick;      /* where it ends */
} tc_frame;             /* a field that says nothing of its kind of frame is 0 */

/* What a call gave. */
typedef struct tc_given {
    size_t made;  /* frames written, from the front */
    bool done;    /* nothing more is due at the tick, and the word is among the frames. If it is false, call again with
                     the same tick or word */
    bool refused; /* nothing changed: the tick lies before the latest one or at 2 to the 60th or later, or the numbers
                     are no word */
} tc_given;

/* The library's own form of it. */
size_t tc_wheel_bytes(void);
size_t tc_wheel_boundary(void);
void tc_wheel_at(void *room, tc_handle *handle);
bool tc_wheel_start_(tc_handle *handle, uint32_t limit);
tc_given tc_wheel_pass_(tc_handle *handle, uint64_t tick, tc_frame *frames, size_t room);
tc_given tc_wheel_hear_(tc_handle *handle, const tc_heard *word, tc_frame *frames, size_t room);

#define TC_WHEEL_BYTES 128
#define TC_WHEEL_BOUNDARY 16
typedef struct tc_wheel {
    TC_ALIGN(TC_WHEEL_BOUNDARY) unsigned char state[TC_WHEEL_BYTES];
} tc_wheel;

/* Begins anew, and tells whether the limit is taken: the most frames that are invented in a row, 0 to 255. If it is
 * not, nothing changes. The flywheel was made by tc_wheel_init before, or copied from one that was. */
static inline bool tc_wheel_start(tc_wheel *wheel, uint32_t limit) {
    tc_handle handle = {wheel->state};
    return tc_wheel_start_(&handle, limit);
}

/* Makes a flywheel, before its first word, and tells whether the limit is taken, as tc_reader_init does. */
static inline bool tc_wheel_init(tc_wheel *wheel, uint32_t limit) {
    tc_handle handle;
    if (tc_abi() != TC_ABI || tc_wheel_bytes() > TC_WHEEL_BYTES || tc_wheel_boundary() > TC_WHEEL_BOUNDARY) {
        return false;
    }
    tc_wheel_at(wheel->state, &handle);
    return tc_wheel_start_(&handle, limit);
}

/* Tells the time: writes the frames that are due at the tick, as long as there is room. A frame is due half a length
 * after it should have been heard. No tick may lie before that of an earlier call, a word's tick included. Behind the
 * words of a call on a reader tell what tc_reader_told or tc_tape_told gives: the next word may end before the tick of
 * the latest sample. With a room of 0 nothing is written, and the flywheel stays as it was. */
static inline tc_given tc_wheel_pass(tc_wheel *wheel, uint64_t tick, tc_frame *frames, size_t room) {
    tc_handle handle = {wheel->state};
    return tc_wheel_pass_(&handle, tick, frames, room);
}

/* Tells of a word: writes the frames that are due before it, and then it, as long as there is room. A room of 0 writes
 * nothing and leaves the flywheel as it was. */
static inline tc_given tc_wheel_hear(tc_wheel *wheel, const tc_heard *word, tc_frame *frames, size_t room) {
    tc_handle handle = {wheel->state};
    return tc_wheel_hear_(&handle, word, frames, room);
}

/* ---- MIDI Time Code: frames in, bytes out */

/* The library's own form of a writer. */
size_t tc_mtc_writer_bytes(void);
size_t tc_mtc_writer_boundary(void);
void tc_mtc_writer_at(void *room, tc_handle *handle);
void tc_mtc_writer_start_(tc_handle *handle);
tc_given tc_mtc_writer_write_(tc_handle *handle, const tc_frame *frame, uint8_t *bytes, size_t room);

#define TC_MTC_MOST 18 /* the most bytes of a frame: a full message, and four quarter frames */
#define TC_MTC_WRITER_BYTES 64
#define TC_MTC_WRITER_BOUNDARY 16
typedef struct tc_mtc_writer {
    TC_ALIGN(TC_MTC_WRITER_BOUNDARY) unsigned char state[TC_MTC_WRITER_BYTES];
} tc_mtc_writer;

/* Begins anew: the next frame begins a run, with a full message. */
static inline void tc_mtc_writer_start(tc_mtc_writer *writer) {
    tc_handle handle = {writer->state};
    tc_mtc_writer_start_(&handle);
}

/* Makes a writer, before its first frame. False if the library is of another version than this header. */
static inline bool tc_mtc_writer_init(tc_mtc_writer *writer) {
    tc_handle handle;
    if (tc_abi() != TC_ABI || tc_mtc_writer_bytes() > TC_MTC_WRITER_BYTES ||
        tc_mtc_writer_boundary() > TC_MTC_WRITER_BOUNDARY) {
        return false;
    }
    tc_mtc_writer_at(writer->state, &handle);
    tc_mtc_writer_start_(&handle);
    return true;
}

/* Writes the messages of the next frame, as a flywheel gives it: 18 bytes if it begins a run, 8 if it goes on with one,
 * and none for TC_GONE. It is `done` if there is room for 18; if there is less, nothing is written and nothing changes.
 * It is `refused` if the numbers are no frame. Each frame has four quarter frames, to be sent a quarter of it apart. */
static inline tc_given tc_mtc_writer_write(tc_mtc_writer *writer, const tc_frame *frame, uint8_t *bytes, size_t room) {
    tc_handle handle = {writer->state};
    return tc_mtc_writer_write_(&handle, frame, bytes, room);
}

/* ---- MIDI Time Code: bytes in, labels out */

/* What was read. */
enum { TC_MTC_FULL = 1, TC_MTC_QUARTER = 2 };
typedef struct tc_mtc_event {
    uint32_t kind;      /* a full message, or eight quarter frames in a row */
    uint32_t direction; /* of quarter frames: forward if their pieces rise */
    uint32_t fault;     /* 0, or why the address is no label: 1 hours, 2 minutes, 3 seconds, 4 frames, 5 dropped */
    tc_label label;     /* if there is no fault */
    uint64_t place;     /* that of the byte that completes it, from 0 over all bytes */
} tc_mtc_event;         /* a field that says nothing of its kind of event is 0 */

/* The library's own form of a reader. */
size_t tc_mtc_reader_bytes(void);
size_t tc_mtc_reader_boundary(void);
void tc_mtc_reader_at(void *room, tc_handle *handle);
void tc_mtc_reader_start_(tc_handle *handle);
tc_taken tc_mtc_reader_read_(tc_handle *handle, const uint8_t *bytes, size_t count, tc_mtc_event *events, size_t room);

#define TC_MTC_READER_BYTES 128
#define TC_MTC_READER_BOUNDARY 16
typedef struct tc_mtc_reader {
    TC_ALIGN(TC_MTC_READER_BOUNDARY) unsigned char state[TC_MTC_READER_BYTES];
} tc_mtc_reader;

/* Begins anew. */
static inline void tc_mtc_reader_start(tc_mtc_reader *reader) {
    tc_handle handle = {reader->state};
    tc_mtc_reader_start_(&handle);
}

/* Makes a reader, before its first byte. False if the library is of another version than this header. */
static inline bool tc_mtc_reader_init(tc_mtc_reader *reader) {
    tc_handle handle;
    if (tc_abi() != TC_ABI || tc_mtc_reader_bytes() > TC_MTC_READER_BYTES ||
        tc_mtc_reader_boundary() > TC_MTC_READER_BOUNDARY) {
        return false;
    }
    tc_mtc_reader_at(reader->state, &handle);
    tc_mtc_reader_start_(&handle);
    return true;
}

/* Takes bytes of MIDI from the front, and writes the labels that they complete, in order, as long as there is room:
 * with a room of 0 it takes nothing and leaves the reader as it was. Other messages, and real-time bytes between, are
 * passed over. If made == room, bytes may be left: call again with those. In whatever pieces the bytes come, the labels
 * are the same. It is `full` after 2 to the 62nd bytes. */
static inline tc_taken tc_mtc_reader_read(tc_mtc_reader *reader, const uint8_t *bytes, size_t count,
                                          tc_mtc_event *events, size_t room) {
    tc_handle handle = {reader->state};
    return tc_mtc_reader_read_(&handle, bytes, count, events, room);
}

/* ---- code that is made: bits in, intervals out */

/* The library's own form of a maker of cells. */
size_t tc_maker_bytes(void);
size_t tc_maker_boundary(void);
void tc_maker_at(void *room, tc_handle *handle);
bool tc_maker_start_(tc_handle *handle, uint32_t from, uint32_t to, uint32_t step);
tc_given tc_maker_bits_(tc_handle *handle, const tc_bits *bits, uint32_t count, uint32_t *ticks, size_t room);

#define TC_MAKER_BYTES 64
#define TC_MAKER_BOUNDARY 16
typedef struct tc_maker {
    TC_ALIGN(TC_MAKER_BOUNDARY) unsigned char state[TC_MAKER_BYTES];
} tc_maker;

/* Begins anew, and tells whether the shape is taken: a first cell of `from` ticks, and each next one by `step` nearer
 * to `to`. Both lengths are 16 to 8388607, and 8 steps are not more than the lesser of them. If the shape is not taken,
 * nothing changes. */
static inline bool tc_maker_start(tc_maker *maker, uint32_t from, uint32_t to, uint32_t step) {
    tc_handle handle = {maker->state};
    return tc_maker_start_(&handle, from, to, step);
}

/* Makes a maker, before its first bit, and tells whether the shape is taken, as tc_reader_init does. */
static inline bool tc_maker_init(tc_maker *maker, uint32_t from, uint32_t to, uint32_t step) {
    tc_handle handle;
    if (tc_abi() != TC_ABI || tc_maker_bytes() > TC_MAKER_BYTES || tc_maker_boundary() > TC_MAKER_BOUNDARY) {
        return false;
    }
    tc_maker_at(maker->state, &handle);
    return tc_maker_start_(&handle, from, to, step);
}

/* Writes the intervals of the cells of the first `count` bits, bit 0 first: one of a zero, and two of a one. A word has
 * 80, as tc_word_bits gives them. It is `done` if there is room for two intervals of each bit; if there is less,
 * nothing is written and nothing changes. It is `refused` if there are more than 128 bits. A reader locks at the first
 * zero beside a one, so put a zero and a one before the first word: two bits of the number 2. */
static inline tc_given tc_maker_bits(tc_maker *maker, const tc_bits *bits, uint32_t count, uint32_t *ticks,
                                     size_t room) {
    tc_handle handle = {maker->state};
    return tc_maker_bits_(&handle, bits, count, ticks, room);
}

/* ---- sound that is made: intervals in, samples out. A tick is a sample */

/* What a call took and gave. */
typedef struct tc_sound_taken {
    size_t used; /* intervals taken, from the front */
    size_t made; /* samples written, from the front */
} tc_sound_taken;

/* The library's own form of a maker of sound. */
size_t tc_sound_bytes(void);
size_t tc_sound_boundary(void);
void tc_sound_at(void *room, tc_handle *handle);
bool tc_sound_start_(tc_handle *handle, uint32_t level);
tc_sound_taken tc_sound_write_(tc_handle *handle, const uint32_t *ticks, size_t count, int16_t *samples, size_t room);

#define TC_SOUND_BYTES 64
#define TC_SOUND_BOUNDARY 16
typedef struct tc_sound {
    TC_ALIGN(TC_SOUND_BOUNDARY) unsigned char state[TC_SOUND_BYTES];
} tc_sound;

/* Begins anew, with samples of this level, 0 to 32767, and tells whether it is taken. If it is not, nothing changes. */
static inline bool tc_sound_start(tc_sound *sound, uint32_t level) {
    tc_handle handle = {sound->state};
    return tc_sound_start_(&handle, level);
}

/* Makes a maker of sound, before its first interval, and tells whether the level is taken, as tc_reader_init does. */
static inline bool tc_sound_init(tc_sound *sound, uint32_t level) {
    tc_handle handle;
    if (tc_abi() != TC_ABI || tc_sound_bytes() > TC_SOUND_BYTES || tc_sound_boundary() > TC_SOUND_BOUNDARY) {
        return false;
    }
    tc_sound_at(sound->state, &handle);
    return tc_sound_start_(&handle, level);
}

/* Takes intervals from the front, and writes as many samples of each as it has ticks, as long as there is room: those
 * of the first interval above zero, and then below and above by turns. Samples of the last interval may be left for the
 * next call, which may be given no interval. If made < room, nothing is left. With a room of 0 it takes nothing and
 * leaves the maker as it was. */
static inline tc_sound_taken tc_sound_write(tc_sound *sound, const uint32_t *ticks, size_t count, int16_t *samples,
                                            size_t room) {
    tc_handle handle = {sound->state};
    return tc_sound_write_(&handle, ticks, count, samples, room);
}

#ifdef __cplusplus
}
#endif
#endif
