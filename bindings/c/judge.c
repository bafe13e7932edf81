/* Judges each file that is named: a line with the verdict on its first game, or with the reason why there is none.
 *
 *     judge FILE..
 *
 * `-` is the standard input. The status is 0, or 1 where a record was refused, 2 without a file, and 3 where a file
 * can't be read, there is no memory, or the output can't be written. */
#include <goref.h>
#include <errno.h>
#include <stdio.h>
#include <stdlib.h>
#include <string.h>

enum { DONE, REFUSED, WRONG_WORDS, FAULT };

/* Longer records are refused, so no more of a file is read. */
static const size_t most = 16777217;

struct bytes {
    uint8_t *start;
    size_t count, room;
};

/* Reads a stream to its end into bytes that grow. Gives 0, or the number of the fault. */
static int read_all(FILE *stream, struct bytes *bytes)
{
    bytes->count = 0;
    while (bytes->count < most) {
        if (bytes->count == bytes->room) {
            size_t room = bytes->room == 0 ? 65536 : 2 * bytes->room;
            uint8_t *grown = realloc(bytes->start, room);
            if (grown == NULL)
                return ENOMEM;
            bytes->start = grown;
            bytes->room = room;
        }
        size_t left = (bytes->room < most ? bytes->room : most) - bytes->count;
        size_t count = fread(bytes->start + bytes->count, 1, left, stream);
        if (count == 0)
            return ferror(stream) ? errno : 0;
        bytes->count += count;
    }
    return 0;
}

/* The contents of a file. Gives 0, or the number of the fault. */
static int read_file(const char *name, struct bytes *bytes)
{
    int is_input = strcmp(name, "-") == 0;
    FILE *stream = is_input ? stdin : fopen(name, "rb");
    if (stream == NULL)
        return errno;
    int fault = read_all(stream, bytes);
    if (!is_input)
        fclose(stream);
    return fault;
}

/* Prints a line for a record, and gives what it comes to. */
static int judge(const char *name, const struct bytes *record)
{
    char room[256];
    size_t length;
    uint8_t status = goref_judge(record->start, record->count, (uint8_t *)room, sizeof room, &length);
    /* The three lines of a verdict become one. */
    for (size_t place = 0; status == 0 && place + 1 < length; place++)
        if (room[place] == '\n')
            room[place] = ' ';
    printf("%s: %.*s\n", name, (int)(status == 0 ? length - 1 : length), room);
    return status;
}

int main(int count, char **names)
{
    struct bytes bytes = {0};
    int worst = DONE;

    if (count < 2) {
        fprintf(stderr, "usage: judge FILE..\n");
        return WRONG_WORDS;
    }
    for (int number = 1; number < count; number++) {
        int end = FAULT;
        int fault = read_file(names[number], &bytes);
        if (fault != 0)
            fprintf(stderr, "judge: %s: %s\n", names[number], strerror(fault));
        else
            end = judge(names[number], &bytes);
        if (end > worst)
            worst = end;
    }
    free(bytes.start);
    if (fflush(stdout) != 0 || ferror(stdout)) {
        fprintf(stderr, "judge: standard output: %s\n", strerror(errno));
        return FAULT;
    }
    return worst;
}
