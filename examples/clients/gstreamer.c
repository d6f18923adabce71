/* The words of any file that GStreamer decodes, each with its time, from an appsink.
 *
 *     cc -std=gnu11 gstreamer.c $(pkg-config --cflags --libs gstreamer-app-1.0 tc) -o gstreamer
 *     ./gstreamer tape.mov 25 */
#include <gst/app/gstappsink.h>
#include <gst/gst.h>
#include <stdio.h>
#include <stdlib.h>
#include "tc.h"

enum { ROOM = 64, FINENESS = 16, RATE = 48000 };

static void show(const tc_event *events, size_t count) {
    for (size_t i = 0; i < count; i++)
        if (events[i].kind == TC_WORD)
            printf("%.4f %02u:%02u:%02u%c%02u\n", (double)events[i].tick / FINENESS / RATE, events[i].hours,
                   events[i].minutes, events[i].seconds, events[i].detail == TC_COUNT_30_DROP ? ';' : ':',
                   events[i].frames);
}

/* Reads all samples, whose number may be more than the room for their events lets be taken at once. */
static bool read_all(tc_reader *reader, const int16_t *samples, size_t count) {
    tc_event events[ROOM];
    tc_taken taken;
    do {
        taken = tc_reader_write_s16(reader, samples, count, events, ROOM);
        show(events, taken.made);
        samples += taken.used, count -= taken.used;
    } while (!taken.full && ROOM - taken.made < 2);
    return !taken.full;
}

int main(int count, char **words) {
    if (count != 3) return 2;
    gst_init(NULL, NULL);
    tc_settings settings = {.system = (uint32_t)atoi(words[2]), .tolerance = 2, .follows = 1, .threshold = 250,
                            .fineness = FINENESS, .smooth = 1};
    tc_reader reader;
    if (!tc_reader_init(&reader, &settings)) return 2;
    GstElement *line = gst_parse_launch("filesrc name=file ! decodebin ! audioconvert ! audioresample ! "
                                        "audio/x-raw,format=S16LE,channels=1,rate=48000 ! appsink name=end sync=false", NULL);
    GstElement *file = gst_bin_get_by_name(GST_BIN(line), "file"), *end = gst_bin_get_by_name(GST_BIN(line), "end");
    g_object_set(file, "location", words[1], NULL);
    GstBus *bus = gst_element_get_bus(line);
    gst_element_set_state(line, GST_STATE_PLAYING);
    GstMessage *why = NULL;
    bool goes_on = true;
    while (goes_on && !gst_app_sink_is_eos(GST_APP_SINK(end)) && !(why = gst_bus_pop_filtered(bus, GST_MESSAGE_ERROR))) {
        GstSample *sample = gst_app_sink_try_pull_sample(GST_APP_SINK(end), GST_SECOND / 10);
        GstBuffer *buffer = sample ? gst_sample_get_buffer(sample) : NULL;
        GstMapInfo held;
        if (buffer && gst_buffer_map(buffer, &held, GST_MAP_READ)) {
            goes_on = read_all(&reader, (const int16_t *)held.data, held.size / sizeof(int16_t));
            gst_buffer_unmap(buffer, &held);
        }
        if (sample) gst_sample_unref(sample);
    }
    if (why) fprintf(stderr, "%s can't be read\n", words[1]);
    gst_element_set_state(line, GST_STATE_NULL);
    return why || !goes_on ? 3 : 0;
}
