// The CRC of written frames beside boost's crc_16_type, on frames of every length. The last line is 'N passed, M failed'.
#include "gateway.h"
#include <boost/crc.hpp>
#include <cstdio>
#include <random>

int main()
{
    std::mt19937 random(1);
    unsigned long passed = 0, failed = 0;
    for (int round = 0; round < 2000; round++) {
        for (size_t len = 0; len <= 64; len++) {
            uint8_t data[64], out[69];
            for (uint8_t &byte : data) {
                byte = static_cast<uint8_t>(random());
            }
            uint64_t answer = omnilink_frame_write(static_cast<uint8_t>(random()), data, len, out, sizeof out);
            boost::crc_16_type crc;
            crc.process_bytes(out + 1, len + 2);
            bool same = gateway_number(answer) == GATEWAY_ACCEPTED && out[len + 3] == (crc.checksum() & 0xFF) &&
                        out[len + 4] == crc.checksum() >> 8;
            (same ? passed : failed)++;
        }
    }
    std::printf("%lu passed, %lu failed\n", passed, failed);
    return failed > 0;
}
