/* The frames of code that a port of JACK hears: it is read in the thread of the sound, and a flywheel in the main thread
 * bridges its gaps. Through the ring go events and, behind those of each block, the tick up to which all is told.
 *
 *     cc -std=gnu11 jack_frames.c $(pkg-config --cflags --libs jack tc) -o jack_frames
 *     ./jack_frames 25 & jack_connect system:capture_1 frames:ltc */
#include <jack/jack.h>
#include <jack/ringbuffer.h>
#include <stdio.h>
#include <stdlib.h>
#include <unistd.h>
#include "tc.h"
enum { PIECE = 256, ROOM = 16, HELD = 1024, FINENESS = 16, LIMIT = 5, STARTS = 255 };
struct item {
    tc_event event; /* an event; or of kind 0, the tick; or of kind STARTS: other ticks begin */
    uint64_t tick;
};
struct deck {
    tc_settings settings;
    tc_reader reader;
    jack_port_t *port;
    jack_ringbuffer_t *ring;
};

static int16_t to_s16(float sample) { return (int16_t)(sample >= 1 ? 32767 : sample > -1 ? sample * 32767 : -32767); }

static void send(struct deck *deck, struct item item) {
    if (jack_ringbuffer_write_space(deck->ring) >= sizeof item)
        jack_ringbuffer_write(deck->ring, (const char *)&item, sizeof item);
}

static int process(jack_nframes_t count, void *data) {
    struct deck *deck = data;
    const float *heard = jack_port_get_buffer(deck->port, count);
    for (size_t at = 0; at < count;) {
        int16_t samples[PIECE];
        tc_event events[ROOM];
        size_t piece = count - at < PIECE ? count - at : PIECE;
        for (size_t i = 0; i < piece; i++) samples[i] = to_s16(heard[at + i]);
        tc_taken taken = tc_reader_write_s16(&deck->reader, samples, piece, events, ROOM);
        for (size_t i = 0; i < taken.made; i++) send(deck, (struct item){.event = events[i]});
        at += taken.used;
        if (taken.full && jack_ringbuffer_write_space(deck->ring) < sizeof(struct item)) break;
        if (taken.full && tc_reader_start(&deck->reader, &deck->settings)) send(deck, (struct item){.event = {.kind = STARTS}});
    }
    send(deck, (struct item){.tick = tc_reader_told(&deck->reader)});
    return 0;
}

static void show(const tc_frame *frames, size_t count) {
    static const char *const kinds[] = {"", "heard", "invented", "gone"};
    for (const tc_frame *it = frames; it < frames + count; it++)
        printf("%02u:%02u:%02u:%02u %s\n", it->label.hours, it->label.minutes, it->label.seconds, it->label.frames, kinds[it->kind]);
    fflush(stdout);
}

int main(int count, char **words) {
    static struct deck deck;
    jack_client_t *client = jack_client_open("frames", JackNoStartServer, NULL);
    if (!client || count != 2) return 1;
    uint32_t system = (uint32_t)atoi(words[1]), rate = jack_get_sample_rate(client);
    deck.settings = (tc_settings){.system = system, .tolerance = 2, .follows = 1, .threshold = 250, .fineness = FINENESS,
                                  .smooth = 1, .pace = system ? rate * FINENESS / system / 4 : 0};
    tc_wheel wheel;
    if (!tc_reader_init(&deck.reader, &deck.settings) || !tc_wheel_init(&wheel, LIMIT)) return 1;
    deck.ring = jack_ringbuffer_create(HELD * sizeof(struct item));
    deck.port = jack_port_register(client, "ltc", JACK_DEFAULT_AUDIO_TYPE, JackPortIsInput, 0);
    if (!deck.ring || !deck.port || jack_set_process_callback(client, process, &deck) || jack_activate(client)) return 1;
    for (struct item item;; usleep(5000))
        while (jack_ringbuffer_read(deck.ring, (char *)&item, sizeof item) == sizeof item) {
            tc_heard word = tc_heard_in(&item.event);
            tc_frame frames[LIMIT + 2];
            tc_given given = {.done = true};
            if (item.event.kind == STARTS) tc_wheel_start(&wheel, LIMIT);
            do {
                if (item.event.kind == TC_WORD) given = tc_wheel_hear(&wheel, &word, frames, LIMIT + 2);
                if (item.event.kind == 0) given = tc_wheel_pass(&wheel, item.tick, frames, LIMIT + 2);
                show(frames, given.made);
            } while (!given.done && !given.refused);
        }
}
