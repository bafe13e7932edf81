/* Holds games as a server does. Each line of the standard input is the number of a game and a line of
 * the Go Text Protocol for it, as `17 play b d4`; lines of all games come in any order. Each answer is
 * written with the number of its game in front.
 *
 *     server [GAMES]
 *
 * Games have the numbers below GAMES, 1000 unless told otherwise. A game begins on 19 lines with its
 * first line, and `quit` ends it: its next line begins another. `loadsgf` finds files of the working
 * directory, by names without `/`. It ends with 1 at a line without a number, with 2 where the words
 * are wrong, and with 3 where a stream or memory fails. */
#define _POSIX_C_SOURCE 200809L
#include <fcntl.h>
#include <goref.h>
#include <stdio.h>
#include <stdlib.h>
#include <string.h>
#include <sys/stat.h>
#include <unistd.h>

enum { MOST = 16777216 };

static int end(int status, const char *why)
{
    fprintf(stderr, "server: %s\n", why);
    return status;
}

/* The file of a name, if it is a regular one: to open a pipe may wait for ever. */
static FILE *regular(const char *name)
{
    struct stat about;
    FILE *file = NULL;
    int number = strchr(name, '/') == NULL ? open(name, O_RDONLY | O_NONBLOCK | O_CLOEXEC) : -1;

    if (number < 0)
        return NULL;
    if (fstat(number, &about) == 0 && S_ISREG(about.st_mode))
        file = fdopen(number, "rb");
    if (file == NULL)
        close(number);
    return file;
}

/* The bytes of a file, one more than a record may have at most; NULL where it can't be read. */
static uint8_t *contents(const char *name, size_t *size)
{
    FILE *file = regular(name);
    uint8_t *bytes = NULL;

    *size = 0;
    if (file == NULL)
        return NULL;
    for (size_t place = 65536; *size <= MOST; place *= 2) {
        if (place > MOST + 1)
            place = MOST + 1;
        uint8_t *more = realloc(bytes, place);
        if (more == NULL)
            break;
        bytes = more;
        *size += fread(bytes + *size, 1, place - *size, file);
        if (*size < place || ferror(file))
            break;
    }
    if (ferror(file)) {
        free(bytes);
        bytes = NULL;
    }
    fclose(file);
    return bytes;
}

/* Sends a line to a game, with its file where it wants one that is there. */
static uint8_t send_line(goref_session *game, const uint8_t *line, size_t size, size_t *length)
{
    char name[256];
    size_t count, file_size;
    uint8_t *file = NULL;
    uint8_t status;

    if (goref_wants(line, size, (uint8_t *)name, sizeof name - 1, &count) == 0 && count < sizeof name) {
        name[count] = '\0';
        file = contents(name, &file_size);
    }
    if (file == NULL)
        return goref_send(game, line, size, length);
    status = goref_give(game, line, size, file, file_size, length);
    free(file);
    return status;
}

/* Writes the answer to the last line of a game, if it has one, with the game's number in front. */
static int write_answer(goref_session *game, unsigned long number, size_t length)
{
    uint8_t *room = malloc(length + 1);
    int is_written;

    if (room == NULL)
        return 0;
    goref_take(game, room, length, &length);
    is_written = length == 0 || (printf("%lu ", number) > 0 && fwrite(room, 1, length, stdout) == length);
    free(room);
    return is_written;
}

/* Answers a line of the input. Gives 0, or the status to end with. */
static int answer(goref_session *games, unsigned long count, char *line, size_t size)
{
    char *rest;
    unsigned long number = strtoul(line, &rest, 10);
    size_t length;
    uint8_t status;

    if (*line < '0' || *line > '9' || number >= count)
        return end(1, "a line begins with no number of a game");
    if (games[number].session == NULL && goref_open(19, &games[number]) != 0)
        return end(3, "out of memory");
    status = send_line(&games[number], (const uint8_t *)rest, size - (size_t)(rest - line), &length);
    if (status == 3)
        return end(3, "out of memory");
    if (!write_answer(&games[number], number, length))
        return end(3, "write fault");
    if (status == 1)
        goref_close(&games[number]);
    return 0;
}

int main(int words, char **word)
{
    unsigned long count = words > 1 ? strtoul(word[1], NULL, 10) : 1000;
    goref_session *games = calloc(count, sizeof *games);
    char *line = NULL;
    size_t place = 0;
    ssize_t size;
    int status = 0;

    if (words > 2 || count == 0)
        return end(2, "usage: server [GAMES]");
    if (games == NULL)
        return end(3, "out of memory");
    while (status == 0 && (size = getline(&line, &place, stdin)) >= 0) {
        status = answer(games, count, line, (size_t)size);
        if (status == 0 && fflush(stdout) != 0)
            status = end(3, "write fault");
    }
    if (status == 0 && ferror(stdin))
        status = end(3, "read fault");
    for (unsigned long number = 0; number < count; number++)
        goref_close(&games[number]);
    free(games);
    free(line);
    return status;
}
