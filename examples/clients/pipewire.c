/* The words of code that PipeWire captures, as they come.
 *
 *     cc -std=gnu11 pipewire.c $(pkg-config --cflags --libs libpipewire-0.3 tc) -o pipewire
 *     ./pipewire 25 [NODE] */
#include <pipewire/pipewire.h>
#include <spa/param/audio/format-utils.h>
#include <stdio.h>
#include <stdlib.h>
#include "tc.h"

enum { ROOM = 64, RATE = 48000 };
struct deck {
    struct pw_main_loop *loop;
    struct pw_stream *stream;
    tc_settings settings;
    tc_reader reader;
};

static void read_all(struct deck *deck, const int16_t *samples, size_t count) {
    tc_event events[ROOM];
    tc_taken taken;
    do {
        taken = tc_reader_write_s16(&deck->reader, samples, count, events, ROOM);
        for (size_t i = 0; i < taken.made; i++)
            if (events[i].kind == TC_WORD)
                printf("%02u:%02u:%02u:%02u %s\n", events[i].hours, events[i].minutes, events[i].seconds,
                       events[i].frames, events[i].direction == TC_BACKWARD ? "backward" : "forward");
        samples += taken.used, count -= taken.used;
        if (taken.full) tc_reader_start(&deck->reader, &deck->settings);
    } while (taken.full || ROOM - taken.made < 2);
    fflush(stdout);
}

/* In the loop's own thread, not in that of the sound, so that printing is allowed. */
static void process(void *data) {
    struct deck *deck = data;
    struct pw_buffer *held = pw_stream_dequeue_buffer(deck->stream);
    if (!held) return;
    struct spa_data *sound = &held->buffer->datas[0];
    if (sound->data)
        read_all(deck, SPA_PTROFF(sound->data, sound->chunk->offset, const int16_t), sound->chunk->size / sizeof(int16_t));
    pw_stream_queue_buffer(deck->stream, held);
}

static const struct pw_stream_events EVENTS = {PW_VERSION_STREAM_EVENTS, .process = process};

int main(int count, char **words) {
    static struct deck deck;
    if (count != 2 && count != 3) return 2;
    deck.settings = (tc_settings){.system = (uint32_t)atoi(words[1]), .tolerance = 2, .follows = 1, .threshold = 250,
                                  .fineness = 16, .smooth = 1};
    if (!tc_reader_init(&deck.reader, &deck.settings)) return 2;
    pw_init(NULL, NULL);
    deck.loop = pw_main_loop_new(NULL);
    struct pw_properties *told = pw_properties_new(PW_KEY_MEDIA_TYPE, "Audio", PW_KEY_MEDIA_CATEGORY, "Capture", NULL);
    if (count == 3) pw_properties_set(told, PW_KEY_TARGET_OBJECT, words[2]);
    deck.stream = pw_stream_new_simple(pw_main_loop_get_loop(deck.loop), "reads", told, &EVENTS, &deck);
    uint8_t room[1024];
    struct spa_pod_builder builder = SPA_POD_BUILDER_INIT(room, sizeof room);
    struct spa_audio_info_raw form = {.format = SPA_AUDIO_FORMAT_S16, .rate = RATE, .channels = 1};
    const struct spa_pod *forms[] = {spa_format_audio_raw_build(&builder, SPA_PARAM_EnumFormat, &form)};
    if (!deck.stream || pw_stream_connect(deck.stream, PW_DIRECTION_INPUT, PW_ID_ANY,
                                          PW_STREAM_FLAG_AUTOCONNECT | PW_STREAM_FLAG_MAP_BUFFERS, forms, 1) < 0)
        return 3;
    return pw_main_loop_run(deck.loop) < 0 ? 3 : 0;
}
