/* The technician's end of examples/door.c, for tests/door.

       practice DOOR SECRET STEP...    starts the program DOOR on a pseudo-terminal and takes the steps: hex digits are bytes to
                                       send at once, +MS is a pause, = awaits an answer and prints it. Then it prints what else
                                       came, hangs up, and prints what the program printed and its exit status
       practice seconds MS...          gives the door an acknowledge after each of these times, in a session during a shut-out,
                                       of which 3,600 seconds are left at first
       practice logins MS...           gives it a login after each of these times, at first three wrong ones, then right ones */
#define main door_main
#include "../examples/door.c"
#undef main
#include <sys/wait.h>

enum { ANSWER = 5, LONGEST_MS = 2000, BESIDES_MS = 100 };

/* Starts the door; the end of a pipe from which to read what it prints. */
static FILE *start_door(const char *program, const char *secret, int technician)
{
    int ends[2];
    const char *line = ptsname(technician);
    pid_t child = pipe(ends) == 0 ? fork() : -1;
    if (child < 0) {
        fail("start of the door");
    }
    if (child == 0) {
        dup2(ends[1], STDOUT_FILENO);
        close(ends[0]);
        close(ends[1]);
        close(technician);    /* else the door would never see the technician hang up */
        execl(program, program, line, secret, (char *)NULL);
        fail(program);
    }
    close(ends[1]);
    FILE *printed = fdopen(ends[0], "r");
    if (printed == NULL) {
        fail("start of the door");
    }
    return printed;
}

/* The first line says that the door has opened its line; what is sent before can be lost. */
static void skip_line(FILE *printed)
{
    for (int c = 0; c != '\n' && c != EOF;) {
        c = getc(printed);
    }
}

static void send_hex(int fd, const char *digits)
{
    uint8_t bytes[256];
    size_t len = 0;
    unsigned byte;
    for (; len < sizeof bytes && sscanf(digits + 2 * len, "%2x", &byte) == 1; len++) {
        bytes[len] = (uint8_t)byte;
    }
    send_all(fd, bytes, len);
}

static void pause_for(unsigned long ms)
{
    struct timespec t = {.tv_sec = (time_t)(ms / 1000), .tv_nsec = (long)(ms % 1000) * 1000000};
    nanosleep(&t, NULL);
}

static void print_answer(int fd)
{
    uint8_t bytes[ANSWER];
    size_t len = 0;
    for (size_t n = 1; n > 0 && len < ANSWER; len += n) {
        n = receive(fd, LONGEST_MS, bytes + len, ANSWER - len);
    }
    printf("answer");
    print_bytes(bytes, len);
    printf("\n");
}

static void print_besides(int fd)
{
    uint8_t bytes[256];
    size_t len = receive(fd, BESIDES_MS, bytes, sizeof bytes);
    if (len > 0) {
        printf("besides");
        print_bytes(bytes, len);
        printf("\n");
    }
}

static void take_step(int fd, const char *step)
{
    if (*step == '=') {
        print_answer(fd);
    } else if (*step == '+') {
        pause_for(strtoul(step + 1, NULL, 10));
    } else {
        send_hex(fd, step);
    }
}

static void hang_up(int fd, FILE *printed)
{
    int status = -1;
    close(fd);
    for (int c = getc(printed); c != EOF; c = getc(printed)) {
        putchar(c);
    }
    wait(&status);
    printf("exit status %d\n", WIFEXITED(status) ? WEXITSTATUS(status) : -1);
}

static void give_seconds(int count, char **ms)
{
    struct door door = {.fd = open("/dev/null", O_WRONLY), .clock = rehearsal_clock, .secret = {1, 2, 3, 4},
                        .state = {1, 0, 3600 >> 8, 3600 & 0xFF}};
    for (int i = 0; i < count; i++) {
        rehearsal_time += strtoul(ms[i], NULL, 10);
        judge(&door, ACKNOWLEDGE, NULL, 0);
    }
}

static void give_logins(int count, char **ms)
{
    struct door door = {.fd = open("/dev/null", O_WRONLY), .clock = rehearsal_clock, .secret = {1, 2, 3, 4}};
    for (int i = 0; i < count; i++) {
        const uint8_t digits[] = {1, 2, 3, i < 3 ? 5 : 4};
        rehearsal_time += strtoul(ms[i], NULL, 10);
        judge(&door, 0x20, digits, sizeof digits);
    }
}

int main(int argc, char **argv)
{
    if (argc > 2 && strcmp(argv[1], "seconds") == 0) {
        give_seconds(argc - 2, argv + 2);
        return 0;
    }
    if (argc > 2 && strcmp(argv[1], "logins") == 0) {
        give_logins(argc - 2, argv + 2);
        return 0;
    }
    if (argc < 3) {
        fprintf(stderr, "use: practice DOOR SECRET STEP... | practice seconds MS... | practice logins MS...\n");
        return 1;
    }
    int technician = open_technician();
    FILE *printed = start_door(argv[1], argv[2], technician);
    skip_line(printed);
    for (int i = 3; i < argc; i++) {
        take_step(technician, argv[i]);
    }
    print_besides(technician);
    hang_up(technician, printed);
    return 0;
}
