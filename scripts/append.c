/* What the disk alone takes for a journal. Copies a journal of the wallet frame by frame into a new file, by the four calls
   that a commit makes: write the payload with its length before it and a closed gate behind it, sync, open the gate before
   it, sync. Prints how many frames there were, the seconds that this took, and how many of these passed in the syncs.

   Use: append JOURNAL COPY */
#define _POSIX_C_SOURCE 200809L

#include <fcntl.h>
#include <stdio.h>
#include <stdlib.h>
#include <string.h>
#include <sys/stat.h>
#include <time.h>
#include <unistd.h>

enum { HEADER = 8, LENGTH = 4, CLOSED = 0, OPEN = 1 };

static double in_syncs;

static void fail(const char *what)
{
    perror(what);
    exit(1);
}

static double seconds(void)
{
    struct timespec now;
    clock_gettime(CLOCK_MONOTONIC, &now);
    return (double)now.tv_sec + (double)now.tv_nsec / 1e9;
}

static void write_at(int file, size_t at, const unsigned char *bytes, size_t count)
{
    if (pwrite(file, bytes, count, (off_t)at) != (ssize_t)count)
        fail("pwrite");
}

static void sync_file(int file)
{
    double start = seconds();
    if (fdatasync(file) != 0)
        fail("fdatasync");
    in_syncs += seconds() - start;
}

/* The whole journal, in memory. */
static unsigned char *bytes_of(const char *name, size_t *count)
{
    int file = open(name, O_RDONLY);
    struct stat found;
    if (file < 0 || fstat(file, &found) != 0)
        fail(name);
    *count = (size_t)found.st_size;
    unsigned char *bytes = malloc(*count);
    if (bytes == NULL || read(file, bytes, *count) != (ssize_t)*count)
        fail(name);
    close(file);
    return bytes;
}

/* How many bytes stand behind the gate at this place up to and with the next gate: a length, a payload and a gate. */
static size_t frame_size(const unsigned char *journal, size_t gate, size_t length)
{
    const unsigned char *at = journal + gate + 1;
    if (length - gate > LENGTH) {
        size_t payload = (size_t)at[0] << 24 | (size_t)at[1] << 16 | (size_t)at[2] << 8 | at[3];
        if (LENGTH + payload + 1 < length - gate)
            return LENGTH + payload + 1;
    }
    fputs("append: a frame passes the end of the journal\n", stderr);
    exit(1);
}

/* Commits the frame of this size behind the gate at this place. */
static void commit(int file, unsigned char *journal, size_t gate, size_t size)
{
    unsigned char *frame = journal + gate + 1;
    unsigned char next = frame[size - 1];
    frame[size - 1] = CLOSED;
    write_at(file, gate + 1, frame, size);
    sync_file(file);
    write_at(file, gate, &journal[gate], 1);
    sync_file(file);
    frame[size - 1] = next;
}

/* Commits all frames of the journal, and answers how many there were. */
static size_t commit_all(int file, unsigned char *journal, size_t length)
{
    size_t frames = 0;
    size_t gate = HEADER;
    while (journal[gate] == OPEN) {
        size_t size = frame_size(journal, gate, length);
        commit(file, journal, gate, size);
        gate += size;
        frames++;
    }
    return frames;
}

int main(int count, char **words)
{
    if (count != 3) {
        fputs("usage: append JOURNAL COPY\n", stderr);
        return 2;
    }
    size_t length;
    unsigned char *journal = bytes_of(words[1], &length);
    int file = open(words[2], O_RDWR | O_CREAT | O_EXCL, 0666);
    if (file < 0)
        fail(words[2]);
    unsigned char fresh[HEADER + 1] = { CLOSED };
    if (length < sizeof fresh) {
        fputs("append: this is no journal\n", stderr);
        return 1;
    }
    memcpy(fresh, journal, HEADER);
    write_at(file, 0, fresh, sizeof fresh);
    sync_file(file);

    in_syncs = 0;
    double start = seconds();
    size_t frames = commit_all(file, journal, length);
    printf("%zu %.6f %.6f\n", frames, seconds() - start, in_syncs);
    free(journal);
    return close(file) == 0 ? 0 : 1;
}
