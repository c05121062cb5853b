/* Omni-Link frames, read and written. The CRC takes eight bytes at a time, so the sizes are not all alike modulo 8. */
#include "bench.h"
#include "frame.h"
#include "gateway.h"

PLAIN uint64_t plain_read(const uint8_t *s, size_t n)
{
    unsigned refusal = frame_refusal(s, n);
    return refusal ? refusal : (uint64_t)s[2] << 8 | (uint64_t)(s[1] - 1) << 16;
}

PLAIN uint64_t plain_write(uint8_t type, const uint8_t *data, size_t n, uint8_t *out, size_t room)
{
    return n > 64 ? 3 : put_frame(type, data, n, out, room);
}

static uint8_t data[64], frame[69], out[69];
static size_t size;

SIDES(read, omnilink_frame_read, plain_read, frame, size)
SIDES(write, omnilink_frame_write, plain_write, 0x16, data, size - 5, out, sizeof out)

int main(void)
{
    static const size_t sizes[] = {5, 7, 9, 12, 21, 68, 69};
    char name[64];
    fill_table();
    for (size_t i = 0; i < sizeof data; i++) {
        data[i] = (uint8_t)(i * 29 + 3);
    }
    for (size_t k = 0; k < sizeof sizes / sizeof sizes[0]; k++) {
        size = sizes[k];
        omnilink_frame_write(0x16, data, size - 5, frame, sizeof frame);
        snprintf(name, sizeof name, "omnilink_frame_read, %zu bytes", size);
        ROW(name, read, 16, out);
        snprintf(name, sizeof name, "omnilink_frame_write, %zu bytes", size);
        ROW(name, write, 16, out);
    }
    return 0;
}
