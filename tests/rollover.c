/* The Omni-Link line of examples/gateway.c over several captures, for tests/demo.

       rollover REPLIES FRAMES    so many replies of so many frames, each of 7 bytes: one event, numbered over the whole line

   A reply stands in a pipe before it is read: every run gets the same pieces, and the line is quiet where the reply ends and
   nowhere else. */
#define main gateway_main
#include "../examples/gateway.c"
#undef main

static void send_event(int fd, unsigned number)
{
    uint8_t frame[FRAME_MAX];
    const uint8_t event[] = {(uint8_t)(0x10 + (number >> 8)), (uint8_t)number};
    uint64_t written = omnilink_message_write(EVENTS, event, sizeof event, frame, sizeof frame);
    send_all(fd, frame, gateway_value(written));
}

int main(int argc, char **argv)
{
    unsigned replies = argc == 3 ? (unsigned)atoi(argv[1]) : 0, frames = argc == 3 ? (unsigned)atoi(argv[2]) : 0;
    int ends[2];
    if (pipe(ends) != 0) {
        fail("pipe");
    }
    struct line line = {.fd = ends[0]};    /* no waits: what is not there will not come */
    struct stream stream = {.len = 0};
    for (unsigned reply = 0; reply < replies; reply++) {
        for (unsigned i = 0; i < frames; i++) {
            send_event(ends[1], reply * frames + i);
        }
        while (read_frames(&line, &stream) > 0) {
        }
    }
    end_listing(&stream);
    return 0;
}
