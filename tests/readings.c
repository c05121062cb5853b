/* What examples/gateway.c adds to its tally, and what it takes as the values of a group, for tests/demo: a thermostat that sends one
   reply after the other from a list, three to a poll whose replies are refused or another thermostat's. */
#define main gateway_main
#include "../examples/gateway.c"
#undef main

struct sent {
    const char *bytes;
    size_t len;
};

static void play(int fd, const struct sent *replies, size_t count)
{
    uint8_t bytes[OMNISTAT_MAX];
    size_t len = 0;
    ssize_t n;
    for (size_t i = 0; i < count && (n = read(fd, bytes + len, sizeof bytes - len)) > 0;) {
        len += (size_t)n;
        if (gateway_number(omnistat_read_at_thermostat(bytes, len)) != GATEWAY_SHORT) {
            send_all(fd, (const uint8_t *)replies[i].bytes, replies[i].len);
            i++;
            len = 0;
        }
    }
    while (read(fd, bytes, sizeof bytes) > 0) {    /* the line stays open until the gateway closes it */
    }
}

static void play_readings(int fd)
{
    static const struct sent replies[] = {
        /* readings of another thermostat */
        SENDS("\x82\x32\xAA\x87\x07\xEC"), SENDS("\x82\x32\xAA\x87\x07\xEC"), SENDS("\x82\x32\xAA\x87\x07\xEC"),
        /* damaged ones */
        SENDS("\x81\x32\xAA\x87\x07\xEC"), SENDS("\x81\x32\xAA\x87\x47\xEB"), SENDS("\x81\x32\xAA\x87\x07\x6B"),
        SENDS("\x81\x01\x82"),                /* a negative */
        SENDS("\x81\x32\xA9\x87\x07\xEA"),    /* registers 169 and 170 */
        SENDS("\x81\x32\xAA\x87\x07\xEB"),    /* a reading, and once more at a full tally */
        SENDS("\x81\x32\xAA\x87\x07\xEB")};
    play(fd, replies, sizeof replies / sizeof *replies);
}

static void play_groups(int fd)
{
    static const struct sent replies[] = {
        /* thermostat 1, numbered: group 1, group 1 in place of group 2, group 3 */
        SENDS("\x81\x63\x7C\x74\x02\x00\x00\x7D\x53"), SENDS("\x81\x63\x7C\x74\x02\x00\x00\x7D\x53"),
        SENDS("\x81\xA5\x01\x03\x06\x09\x0C\x87\x07\x0F\x12\x18\x0C"),
        /* thermostat 2, printed: type 4 is unknown; six values are group 2, and are not group 3 */
        SENDS("\x82\x64\x2D\x3C\x1E\x82\x5A\x01\x4A"), SENDS("\x82\x64\x2D\x3C\x1E\x82\x5A\x01\x4A"),
        SENDS("\x82\x64\x2D\x3C\x1E\x82\x5A\x01\x4A"), SENDS("\x82\x63\x2D\x3C\x1E\x82\x5A\x01\x49"),
        SENDS("\x82\x63\x2D\x3C\x1E\x82\x5A\x01\x49"), SENDS("\x82\x63\x2D\x3C\x1E\x82\x5A\x01\x49"),
        SENDS("\x82\x63\x2D\x3C\x1E\x82\x5A\x01\x49"),
        /* and ten are not group 1; a negative is no group; ten are group 3 */
        SENDS("\x82\xA3\x01\x03\x06\x09\x0C\x87\x07\x0F\x12\x18\x0B"),
        SENDS("\x82\xA3\x01\x03\x06\x09\x0C\x87\x07\x0F\x12\x18\x0B"),
        SENDS("\x82\xA3\x01\x03\x06\x09\x0C\x87\x07\x0F\x12\x18\x0B"), SENDS("\x82\x01\x83"),
        SENDS("\x82\xA3\x01\x03\x06\x09\x0C\x87\x07\x0F\x12\x18\x0B")};
    play(fd, replies, sizeof replies / sizeof *replies);
}

int main(void)
{
    struct line costs = {.fd = start_device(play_readings), .reply_ms = 1250, .gap_ms = 50};
    struct line groups = {.fd = start_device(play_groups), .reply_ms = 1250, .gap_ms = 50};
    struct thermostat metered = {&costs, 1, OMNISTAT_NUMBERED, 1};
    struct thermostat numbered = {&groups, 1, OMNISTAT_NUMBERED, 1}, printed = {&groups, 2, OMNISTAT_PRINTED, 1};
    struct tally tally = {7}, full = {UINT64_MAX};
    for (int i = 0; i < 5; i++) {
        add_cost(&metered, &tally);
        print_units(tally.total, "\n");
    }
    add_cost(&metered, &full);
    print_units(full.total, "\n");
    show_groups(&numbered);
    show_groups(&printed);
    show_groups(&printed);
    fflush(stdout);
    close(costs.fd);
    close(groups.fd);
    while (wait(NULL) > 0) {
    }
    return 0;
}
