/* The other side of keeper.c: a controller that sends its lines, each until it has its row, and writes the rows to standard output.
 *
 *     cc controller.c -o controller
 *     ./controller keeper.sock readings.txt >>rows.log
 *
 * READINGS has the line of names and then this controller's lines, as a folder's readings.txt has them. It stands for the devices, and for what the
 * controller keeps of them: a line stays there until its row is there.
 *
 * A row that does not come in time may be late, the line may be lost, or the keeper may have been killed before it took the line or after: the
 * controller cannot tell, and need not. It sends the very same line again, with the same number. It does so over a new connection, so that a late
 * row of the first sending is never taken for that of another line. */
#define _XOPEN_SOURCE 700
#include <errno.h>
#include <stdio.h>
#include <stdlib.h>
#include <string.h>
#include <sys/socket.h>
#include <sys/time.h>
#include <sys/un.h>
#include <time.h>
#include <unistd.h>

enum { ROW_MOST = 32768, REQUEST_MOST = 65536 };

struct line {
    char *start; /* a byte of 0 stands behind it */
    size_t length;
    size_t room;
};

static char row[ROW_MOST + 1];
static struct sockaddr_un keeper = {.sun_family = AF_UNIX};

static void stop(const char *what, const char *why)
{
    fprintf(stderr, "controller: %s: %s\n", what, why);
    exit(1);
}

/* Sends a request once and awaits its answer for a second. Whether it is there; it is then in `row`. */
static int ask(const char *request, size_t length)
{
    struct timeval second = {1, 0};
    ssize_t got = -1;
    int to = socket(AF_UNIX, SOCK_SEQPACKET, 0);
    if (to < 0)
        return 0;
    if (setsockopt(to, SOL_SOCKET, SO_RCVTIMEO, &second, sizeof second) == 0 && setsockopt(to, SOL_SOCKET, SO_SNDTIMEO, &second, sizeof second) == 0
        && connect(to, (struct sockaddr *)&keeper, sizeof keeper) == 0 && send(to, request, length, MSG_NOSIGNAL) == (ssize_t)length)
        got = recv(to, row, ROW_MOST, 0);
    close(to);
    row[got > 0 ? got : 0] = 0;
    return got > 0;
}

/* Sends a request until it is answered. */
static void insist(const char *request, size_t length)
{
    struct timespec pause = {0, 5000000};
    while (!ask(request, length)) {
        fprintf(stderr, "controller: no answer, sending again\n");
        nanosleep(&pause, NULL);
    }
}

static void print_row(void)
{
    if (puts(row) < 0 || fflush(stdout) != 0)
        stop("standard output", strerror(errno));
}

/* Takes the next line of a file, without its line feed. Returns 0 at the end. */
static int next_line(FILE *from, struct line *line)
{
    ssize_t length = getline(&line->start, &line->room, from);
    if (length <= 0)
        return 0;
    line->length = (size_t)length - (line->start[length - 1] == '\n');
    line->start[line->length] = 0;
    return 1;
}

/* The number that stands behind the sender. */
static unsigned long number_of(const char *fields)
{
    const char *space = strchr(fields, ' ');
    return space ? strtoul(space + 1, NULL, 10) : 0;
}

/* A controller that was off asks how far it came. The row of its last taken line has its number, and what it fired, which may have been missed. */
static unsigned long ask_last(struct line line)
{
    char request[64];
    int sender = (int)strcspn(line.start, " ");
    int length = snprintf(request, sizeof request, "last %.*s", sender, line.start);
    if (length >= (int)sizeof request)
        stop("the first line", "its sender is no name");
    insist(request, (size_t)length);
    if (strncmp(row, line.start, (size_t)sender) != 0 || row[sender] != ' ')
        stop("the first line", row);
    return number_of(row);
}

static void send_line(struct line names, struct line line)
{
    static char request[REQUEST_MOST];
    size_t length = names.length + 1 + line.length;
    if (length > sizeof request)
        stop("a line", "it is too long to be taken");
    memcpy(request, names.start, names.length);
    request[names.length] = '\n';
    memcpy(request + names.length + 1, line.start, line.length);
    insist(request, length);
    print_row();
}

int main(int count, char **words)
{
    struct line names = {NULL, 0, 0}, line = {NULL, 0, 0};
    unsigned long last;
    FILE *readings;
    if (count != 3) {
        fprintf(stderr, "usage: %s SOCKET READINGS\n", words[0]);
        return 2;
    }
    if (strlen(words[1]) >= sizeof keeper.sun_path)
        stop(words[1], "the name of the socket is too long");
    strcpy(keeper.sun_path, words[1]);
    readings = fopen(words[2], "r");
    if (!readings)
        stop(words[2], strerror(errno));
    if (!next_line(readings, &names) || !next_line(readings, &line))
        stop(words[2], "it has no line of readings");

    last = ask_last(line);
    if (last > 0) {
        print_row();
        while (number_of(line.start) != last)
            if (!next_line(readings, &line))
                stop(words[2], "the keeper has a line of this controller that is not here");
        if (!next_line(readings, &line))
            return 0;
    }
    do
        send_line(names, line);
    while (next_line(readings, &line));
    return 0;
}
