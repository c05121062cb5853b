/* The stack of the deepest call: each kind runs on a painted stack, and the bytes down to the lowest one written are counted. */
#define _POSIX_C_SOURCE 200809L
#include "gateway.h"
#include <pthread.h>
#include <stdio.h>
#include <stdlib.h>
#include <string.h>

enum { SIZE = 1 << 18, PAINT = 0xA7 };

static uint8_t *stack;
static uint8_t input[4096], map[256], texts[THERMOSTAT_TEXTS], out[1 << 16];
static uint8_t frame[69], damaged[69], places[62], fresh[CAPTURE_STATE], held[CAPTURE_STATE];
static size_t frame_len;
static volatile uint64_t sink;

static void frame_read(void) { sink = omnilink_frame_read(frame, frame_len); }
static void frame_write(void) { sink = omnilink_frame_write(0x16, input, 64, out, sizeof out); }
static void mend(void) { sink = frame_mend(damaged, sizeof damaged, out, sizeof out); }
static void message_read(void) { sink = omnilink_message_read(frame, frame_len); }
static void message_write(void) { sink = omnilink_message_write(0x16, input, 64, out, sizeof out); }
static void zone(void) { sink = omnilink_zone(frame, frame_len, 31); }
static void omnistat_write(void) { sink = omnistat_write_to_thermostat(1, 1, (const uint8_t[]){59, 124}, 2, out, sizeof out); }
static void write_group(void) { sink = omnistat_write_group_to_host(OMNISTAT_PRINTED, 3, 1, 3, input, 10, out, sizeof out); }
static void group_read(void)
{
    sink = omnistat_read_at_host(OMNISTAT_PRINTED, 3, (const uint8_t[]){0x81, 0xA3, 1, 2, 3, 4, 5, 6, 7, 8, 9, 10, 0x5B}, 13);
}
static void write_text(void) { sink = omnistat_write_text_to_thermostat(1, 0, 175, (const uint8_t *)"low", 3, out, sizeof out); }
static void take(const uint8_t *bytes, size_t len)
{
    sink = thermostat_step(1, map, sizeof map, texts, sizeof texts, bytes, len, out, sizeof out);
}
static void step(void) { take((const uint8_t[]){0x01, 0x21, 0x3B, 0x7C, 0xD9}, 5); }
static void group(void) { take((const uint8_t[]){0x01, 0x04, 0x05}, 3); }
static void text_set(void) { take((const uint8_t[]){0x01, 0x01, 0xAF, 'H', 'I', 0x03, 0x45}, 7); }
static void text_poll(void) { take((const uint8_t[]){0x01, 0x20, 0xAF, 0x01, 0xD1}, 5); }
static void setpoints(void) { sink = setpoints_to_bytes(setpoints_from_bytes(120, 112)); }
static void x10(void) { sink = x10_read(places, sizeof places); }
static void x10_write(void) { sink = x10_write_extended(0, 1, 0x55, 0xAA, places, sizeof places); }
static void listing(void) { sink = capture_listing(input, sizeof input, out, sizeof out); }
static void piece(void) { sink = capture_piece(fresh, sizeof fresh, input, sizeof input, out, sizeof out); }
static void finish(void) { sink = capture_finish(held, sizeof held, out, sizeof out); }

struct run {
    void (*call)(void);
    size_t bytes;
};

/* Paints what lies below its own frame, calls, and counts from there to the lowest byte written. */
static void *on_own_stack(void *argument)
{
    struct run *run = argument;
    uint8_t *below = (uint8_t *)__builtin_frame_address(0) - 64;
    memset(stack, PAINT, (size_t)(below - stack));
    run->call();
    uint8_t *lowest = stack;
    while (lowest < below && *lowest == PAINT) {
        lowest++;
    }
    run->bytes = (size_t)(below - lowest);
    return NULL;
}

static size_t depth(void (*call)(void))
{
    struct run run = {call, 0};
    pthread_attr_t attributes;
    pthread_t thread;
    if (pthread_attr_init(&attributes) || pthread_attr_setstack(&attributes, stack, SIZE) ||
        pthread_create(&thread, &attributes, on_own_stack, &run) || pthread_join(thread, NULL)) {
        perror("stack");
        exit(1);
    }
    pthread_attr_destroy(&attributes);
    return run.bytes;
}

int main(void)
{
    static const struct {
        const char *name;
        void (*call)(void);
    } calls[] = {
        {"omnilink_frame_read", frame_read}, {"omnilink_frame_write", frame_write},
        {"frame_mend", mend},
        {"omnilink_message_read", message_read}, {"omnilink_message_write", message_write},
        {"omnilink_zone", zone}, {"omnistat_write_to_thermostat", omnistat_write},
        {"omnistat_read_at_host, a group", group_read}, {"omnistat_write_group_to_host", write_group},
        {"omnistat_write_text_to_thermostat", write_text},
        {"thermostat_step, a set", step}, {"thermostat_step, group 3", group},
        {"thermostat_step, a text set", text_set}, {"thermostat_step, a text poll", text_poll},
        {"setpoints_to_bytes", setpoints}, {"x10_write_extended", x10_write},
        {"x10_read", x10}, {"capture_listing, 4,096 bytes of frames", listing},
        {"capture_piece, 4,096 bytes of frames", piece}, {"capture_finish, 68 unread bytes with frames", finish},
    };
    if (posix_memalign((void **)&stack, 4096, SIZE)) {
        perror("stack");
        return 1;
    }
    omnilink_message_write(0x16, input, 64, frame, sizeof frame);
    frame_len = 69;
    memcpy(damaged, frame, sizeof damaged);
    damaged[2] ^= 1;
    for (size_t i = 0; i + 5 <= sizeof input; i += 5) {
        omnilink_frame_write(0x05, NULL, 0, input + i, 5);
    }
    capture_piece(held, sizeof held, (const uint8_t[]){0x5A, 0x41}, 2, out, 0);
    capture_piece(held, sizeof held, input, 66, out, 0);
    size_t most = 0;
    const char *deepest = "";
    for (size_t i = 0; i < sizeof calls / sizeof *calls; i++) {
        size_t d = depth(calls[i].call);
        if (d > most) {
            most = d;
            deepest = calls[i].name;
        }
    }
    printf("%-44s %10zu bytes: %s\n", "stack of the deepest call", most, deepest);
    return 0;
}
