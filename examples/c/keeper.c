/* A program to start from: it keeps the bench of a laboratory for its controllers. Its state stands in a file: it can be killed at any moment, and
 * the power may fail; started again, it goes on from there.
 *
 *     cc -Iinclude keeper.c libengine.a -o keeper
 *     ./keeper bench.txt state.bin keeper.sock
 *
 * Controllers (controller.c) connect to the socket, a connection for each request. A request is one packet, and so is its answer:
 *     names, a line feed, values    a line of readings; the answer is its row, or `refused` and a number
 *     last SENDER                   the answer is the row of that sender's last taken line, with 0 as its number if there is none
 *
 * The order makes it safe: a line is taken, then the new state is on disk, and then the row is given out. A kill before the new file has its name
 * leaves the old state: the line was never taken, and its controller, who got no row, sends it again. A kill after that leaves the new one: the line
 * sent again changes nothing and gives the row that was not given out.
 *
 * The state file holds BENCH_STATE_TAG and the state. It belongs to the text of the bench file: after any edit of that, put the state file away. */
#define _XOPEN_SOURCE 700
#include "bench_engine.h"

#include <errno.h>
#include <fcntl.h>
#include <libgen.h>
#include <stdio.h>
#include <stdlib.h>
#include <string.h>
#include <sys/socket.h>
#include <sys/stat.h>
#include <sys/time.h>
#include <sys/un.h>
#include <unistd.h>

/* One byte more than a text or a line may have is enough to have it refused: what is longer may be cut off there. */
enum { TEXT_MOST = BENCH_LONGEST_TEXT + 1, REQUEST_MOST = BENCH_LONGEST_NAMES + 1 + BENCH_LONGEST_LINE + 1, PATH_MOST = 4096 };
enum { STATE_FILE_SIZE = BENCH_STATE_TAG_SIZE + BENCH_STATE_SIZE };

static uint8_t bench[BENCH_SIZE], state[BENCH_STATE_SIZE], row[BENCH_ROW_SIZE];

/* What the state file holds; and the names of the file, of the new one that takes its place, of the lock, and of the folder. */
static uint8_t saved[STATE_FILE_SIZE];
static char state_path[PATH_MOST], new_path[PATH_MOST], lock_path[PATH_MOST], folder[PATH_MOST];

static void stop(const char *what, const char *why)
{
    fprintf(stderr, "keeper: %s: %s\n", what, why);
    exit(1);
}

/* What a file holds, up to `most` bytes; -1 if there is no such file. */
static long read_file(const char *path, uint8_t *into, size_t most)
{
    FILE *from = fopen(path, "rb");
    size_t length;
    if (!from && errno == ENOENT)
        return -1;
    if (!from)
        stop(path, strerror(errno));
    length = fread(into, 1, most, from);
    if (ferror(from))
        stop(path, strerror(errno));
    fclose(from);
    return (long)length;
}

/* The state on disk. */

/* Whoever runs first has the lock until its process ends, in whatever way: two keepers of one state would each undo the other's lines. Whoever had it
 * before may have taken the file away meanwhile, as bin/bench does: a lock counts if its file still has its name. */
static void lock_state(void)
{
    struct stat locked, named;
    int lock = open(lock_path, O_RDWR | O_CREAT, 0644);
    if (lock < 0 || fstat(lock, &locked) != 0)
        stop(lock_path, strerror(errno));
    if (lockf(lock, F_TLOCK, 0) != 0 || stat(lock_path, &named) != 0 || named.st_ino != locked.st_ino || named.st_dev != locked.st_dev)
        stop(lock_path, "another keeper runs on this state");
}

/* The old state or the new one stands under the name, never a part: the new file gets the name when all of it is on disk, and the folder is on disk
 * too before a row is given out. What cannot be stored must not be answered: the program ends, and the line is sent again when it runs again. */
static void save_state(void)
{
    int file, in;
    if (memcmp(saved + BENCH_STATE_TAG_SIZE, state, sizeof state) == 0)
        return; /* a line sent again, or a refused one */
    memcpy(saved, BENCH_STATE_TAG, BENCH_STATE_TAG_SIZE);
    memcpy(saved + BENCH_STATE_TAG_SIZE, state, sizeof state);
    errno = 0; /* a write of a part sets none */
    file = open(new_path, O_WRONLY | O_CREAT | O_TRUNC, 0644);
    if (file < 0 || write(file, saved, sizeof saved) != (ssize_t)sizeof saved || fsync(file) != 0 || close(file) != 0)
        stop(new_path, errno ? strerror(errno) : "not all could be written");
    if (rename(new_path, state_path) != 0)
        stop(state_path, strerror(errno));
    in = open(folder, O_RDONLY);
    if (in < 0 || fsync(in) != 0 || close(in) != 0)
        stop(folder, strerror(errno));
}

/* Goes on from the state file; without one it begins with a fresh state. A file that is none of this form, or of another text, is not overwritten. */
static void load_state(void)
{
    static uint8_t found[STATE_FILE_SIZE + 1];
    long length = read_file(state_path, found, sizeof found);
    if (length < 0) {
        bench_fresh(bench, sizeof bench, state, sizeof state);
        return;
    }
    if (length != STATE_FILE_SIZE || memcmp(found, BENCH_STATE_TAG, BENCH_STATE_TAG_SIZE) != 0)
        stop(state_path, "it is no state of this form");
    memcpy(saved, found, sizeof saved);
    memcpy(state, found + BENCH_STATE_TAG_SIZE, sizeof state);
    /* Any call that takes a state tells whether it is one. */
    if (BENCH_NUMBER(bench_row(bench, sizeof bench, state, sizeof state, (const uint8_t *)"a", 1, row, sizeof row)) == BENCH_NO_STATE)
        stop(state_path, bench_message(BENCH_NO_STATE));
}

/* Requests. */

static uint64_t take_request(const uint8_t *request, size_t length)
{
    static const char last[] = "last ";
    const size_t last_length = sizeof last - 1;
    const uint8_t *feed = memchr(request, '\n', length), *end = request + length;
    const uint8_t *values = feed ? feed + 1 : end;
    if (!feed && length >= last_length && memcmp(request, last, last_length) == 0)
        return bench_row(bench, sizeof bench, state, sizeof state, request + last_length, length - last_length, row, sizeof row);
    return bench_line(bench, sizeof bench, state, sizeof state, request, (size_t)((feed ? feed : end) - request), values, (size_t)(end - values), row,
                      sizeof row);
}

/* A controller that has gone meanwhile gets nothing: it sends again. */
static void give(int controller, const void *bytes, size_t length)
{
    if (send(controller, bytes, length, MSG_NOSIGNAL) < 0)
        perror("keeper: a row could not be given out");
}

static void serve(int controller)
{
    static uint8_t request[REQUEST_MOST];
    struct timeval second = {1, 0}; /* nobody holds up the others for longer */
    char refused[24];
    uint64_t answer;
    ssize_t length;
    if (setsockopt(controller, SOL_SOCKET, SO_RCVTIMEO, &second, sizeof second) != 0
        || setsockopt(controller, SOL_SOCKET, SO_SNDTIMEO, &second, sizeof second) != 0)
        return;
    length = recv(controller, request, sizeof request, 0);
    if (length <= 0)
        return;
    answer = take_request(request, (size_t)length);
    if (BENCH_NUMBER(answer) != BENCH_ACCEPTED) {
        snprintf(refused, sizeof refused, "refused %u", BENCH_NUMBER(answer));
        give(controller, refused, strlen(refused));
        return;
    }
    save_state();
    give(controller, row, BENCH_REST(answer));
}

static int open_socket(const char *path)
{
    struct sockaddr_un address = {.sun_family = AF_UNIX};
    struct stat there;
    int listening = socket(AF_UNIX, SOCK_SEQPACKET, 0);
    if (strlen(path) >= sizeof address.sun_path)
        stop(path, "the name of the socket is too long");
    strcpy(address.sun_path, path);
    if (lstat(path, &there) == 0 && S_ISSOCK(there.st_mode))
        unlink(path); /* left by the last keeper; this one has the lock. Any other file stays, and has the name. */
    if (listening < 0 || bind(listening, (struct sockaddr *)&address, sizeof address) != 0 || listen(listening, SOMAXCONN) != 0)
        stop(path, strerror(errno));
    return listening;
}

static void name_files(const char *path)
{
    char copy[PATH_MOST];
    if (snprintf(lock_path, sizeof lock_path, "%s.lock", path) >= PATH_MOST)
        stop(path, "the name of the state file is too long");
    snprintf(state_path, sizeof state_path, "%s", path);
    snprintf(new_path, sizeof new_path, "%s.new", path);
    snprintf(copy, sizeof copy, "%s", path);
    snprintf(folder, sizeof folder, "%s", dirname(copy));
}

int main(int count, char **words)
{
    static uint8_t text[TEXT_MOST];
    uint64_t answer;
    long length;
    int listening;
    if (count != 4) {
        fprintf(stderr, "usage: %s BENCH STATE SOCKET\n", words[0]);
        return 2;
    }
    length = read_file(words[1], text, sizeof text);
    if (length < 0)
        stop(words[1], strerror(ENOENT));
    answer = bench_check(text, (size_t)length, bench, sizeof bench);
    if (BENCH_NUMBER(answer) != BENCH_ACCEPTED) {
        fprintf(stderr, "keeper: %s, byte %zu: refused %u: %s\n", words[1], BENCH_REST(answer), BENCH_NUMBER(answer),
                bench_message(BENCH_NUMBER(answer)));
        return 1;
    }
    name_files(words[2]);
    lock_state();
    load_state();
    listening = open_socket(words[3]);
    for (;;) {
        int controller = accept(listening, NULL, NULL);
        if (controller < 0)
            continue; /* it has gone again */
        serve(controller);
        close(controller);
    }
}
