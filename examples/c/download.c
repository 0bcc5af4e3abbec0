/*
 * A pack checked while it downloads. A process of its own plays the server: it sends a file through a socket, piece by piece, with a pause behind
 * each, as a slow line brings it. The client never holds the pack. It hands each chunk to an admission, and tells the verdict on a rule as soon as
 * its last byte is in; but it goes by none of them before the close. Whatever goes wrong on the way, nothing is accepted.
 *
 * usage: download PACK [PIECE]
 *
 * PIECE is how many bytes are sent at a time, 1 to 24,576; 64 where it is left out. Prints the provisional verdicts, and at the end the final
 * ones, or that none stands.
 * Exit status: 0 where the pack and all its rules are accepted, 1 where one is refused, 2 for bad usage, where the pack did not come, or where
 * nothing can be told.
 */
#define _POSIX_C_SOURCE 200809L

#include "khalixoshi.h"

#include <errno.h>
#include <stdio.h>
#include <stdlib.h>
#include <string.h>
#include <sys/socket.h>
#include <sys/wait.h>
#include <time.h>
#include <unistd.h>

#define CHUNK 512 /* bytes that the client takes at a time, or fewer */
#define PIECE 64
#define PAUSE 1000000 /* nanoseconds */

static void fail(const char *what, const char *of)
{
    fprintf(stderr, "download: %s%s\n", what, of);
    exit(2);
}

static void fail_by(const char *what, size_t number)
{
    fprintf(stderr, "download: %s%zu\n", what, number);
    exit(2);
}

/* Lets what was printed be seen at once. */
static void show(void)
{
    if (fflush(stdout) != 0 || ferror(stdout))
        fail("cannot write: ", strerror(errno));
}

/* Prints a verdict behind a word. */
static void tell(const char *word, uint16_t tag, khx_verdict verdict)
{
    printf("%s%04X ", word, (unsigned)tag);
    if (verdict.refusal == 0)
        puts("accepted");
    else
        printf("refused %zu at %04zX\n", verdict.refusal, verdict.at);
    show();
}

/* Admits what comes over a line, until its end or until the pack is lost, and tells each verdict as soon as it is known. 1 where it is lost. */
static int take(khx_admission *admission, int line)
{
    uint8_t chunk[CHUNK];
    size_t told = 0;
    khx_admitted stands = khx_admission_start(admission);
    while (stands.refusal == 0 && stands.lost == 0) {
        ssize_t count = read(line, chunk, sizeof chunk);
        if (count < 0 && errno == EINTR)
            continue;
        if (count < 0)
            fail("the download failed: ", strerror(errno));
        if (count == 0)
            return 0;
        stands = khx_admission_chunk(admission, chunk, (size_t)count);
        for (; told < stands.verdicts; told++)
            tell("provisional: ", khx_admission_tag(admission, told), khx_admission_provisional(admission, told));
    }
    if (stands.refusal != 0)
        fail_by("a chunk is refused by ", stands.refusal);
    printf("lost: refused by %zu, whatever follows\n", stands.lost);
    return 1;
}

/* Whether a pack is good and all its rules are accepted: the one place that says so, and never before the close. */
static int accepted(const khx_admission *admission)
{
    khx_admitted stands = khx_admission_ask(admission);
    int good = stands.closed == 1 && stands.refusal == 0;
    for (size_t i = 0; i < stands.verdicts; i++)
        good = good && khx_admission_verdict(admission, i).refusal == 0;
    return good;
}

/* The error by which the server ended, or 0 where it sent the whole file or nobody took it. */
static int ended_by(pid_t server)
{
    int status;
    while (waitpid(server, &status, 0) < 0)
        if (errno != EINTR)
            return errno;
    return WIFEXITED(status) ? WEXITSTATUS(status) : ECONNABORTED;
}

/* Downloads a pack and tells what is final. Gives the exit status. */
static int download(khx_admission *admission, int line, pid_t server)
{
    int lost = take(admission, line);
    close(line);
    int error = ended_by(server);
    if (error != 0 && !lost)
        fail("the download failed: ", strerror(error));
    khx_admitted closed = khx_admission_close(admission);
    if (closed.refusal != 0)
        printf("pack refused %zu: no verdict stands\n", closed.refusal);
    for (size_t i = 0; i < closed.verdicts; i++)
        tell("", khx_admission_tag(admission, i), khx_admission_verdict(admission, i));
    show();
    return accepted(admission) ? 0 : 1;
}

/* Sends all of these bytes; 0 where nobody takes them. */
static int sent(int line, const uint8_t *bytes, size_t length)
{
    while (length > 0) {
        ssize_t count = send(line, bytes, length, MSG_NOSIGNAL);
        if (count < 0 && errno != EINTR)
            return 0;
        if (count > 0) {
            bytes += count;
            length -= (size_t)count;
        }
    }
    return 1;
}

/* The server: sends a file piece by piece. Gives the error by which it cannot be read, or 0. */
static int serve(int line, FILE *file, size_t piece)
{
    static uint8_t bytes[KHX_PACK_MAX];
    struct timespec pause = {0, PAUSE};
    size_t count;
    while ((count = fread(bytes, 1, piece, file)) > 0 && sent(line, bytes, count))
        nanosleep(&pause, NULL);
    return ferror(file) ? errno : 0;
}

static size_t number(const char *word)
{
    char *end;
    unsigned long value = strtoul(word, &end, 10);
    if (word[0] < '0' || word[0] > '9' || *end != 0 || value == 0 || value > KHX_PACK_MAX)
        fail("no number that fits: ", word);
    return (size_t)value;
}

int main(int count, char **words)
{
    static khx_admission admission; /* some 50 KB: much for a stack */
    if (count != 2 && count != 3)
        fail("usage: download PACK [PIECE]", "");
    FILE *file = fopen(words[1], "rb");
    if (file == NULL)
        fail("cannot read ", words[1]);
    size_t piece = count == 3 ? number(words[2]) : PIECE;
    int ends[2];
    if (socketpair(AF_UNIX, SOCK_STREAM, 0, ends) != 0)
        fail("there is no socket", "");
    pid_t server = fork();
    if (server < 0)
        fail("there is no server", "");
    if (server == 0) {
        close(ends[0]);
        _exit(serve(ends[1], file, piece));
    }
    close(ends[1]);
    int status = download(&admission, ends[0], server);
    fclose(file);
    return status;
}
