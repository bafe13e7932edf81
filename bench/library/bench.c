/* Times the library for other languages: bench ROUNDS FILE..
 * The files are read first. Then each function goes over all of them, by one thread and by four at
 * once, and the least time of all rounds is printed, in microseconds a file. The first is no
 * function of the library: it reckons with numbers alone, so it tells what four threads come to on
 * this machine where they share nothing at all. */
#include <goref.h>
#include <pthread.h>
#include <stdio.h>
#include <stdlib.h>
#include <time.h>

struct record {
    uint8_t *bytes;
    size_t size;
};

typedef uint8_t function(const uint8_t *, size_t, uint8_t *, size_t, size_t *);

struct work {
    function *call;
    const struct record *records;
    int count;
    size_t largest;
};

/* 30,000 steps of a random number for each file, which touch no memory. */
static uint8_t steps(const uint8_t *source, size_t size, uint8_t *room, size_t place, size_t *length)
{
    uint64_t state = size + 1;
    (void)source;
    (void)room;
    for (int i = 0; i < 30000; i++) {
        state ^= state << 13;
        state ^= state >> 7;
        state ^= state << 17;
    }
    *length = (size_t)(state % (place + 1));
    return 0;
}

static void *all(void *argument)
{
    const struct work *work = argument;
    size_t place = work->largest + 256;
    uint8_t *room = malloc(place);
    if (room == NULL)
        exit(3);
    for (int i = 0; i < work->count; i++) {
        size_t length;
        work->call(work->records[i].bytes, work->records[i].size, room, place, &length);
    }
    free(room);
    return NULL;
}

static double now(void)
{
    struct timespec time;
    clock_gettime(CLOCK_MONOTONIC, &time);
    return 1e6 * time.tv_sec + 1e-3 * time.tv_nsec;
}

/* The least time in which `threads` threads each go over all records. */
static double least(struct work *work, int threads, int rounds)
{
    double best = 0;
    for (int round = 0; round < rounds; round++) {
        pthread_t ids[4];
        double start = now();
        for (int i = 0; i < threads; i++)
            if (pthread_create(&ids[i], NULL, all, work) != 0)
                exit(3);
        for (int i = 0; i < threads; i++)
            pthread_join(ids[i], NULL);
        double taken = now() - start;
        if (round == 0 || taken < best)
            best = taken;
    }
    return best;
}

static int read_file(const char *name, struct record *record)
{
    FILE *file = fopen(name, "rb");
    if (file == NULL)
        return 0;
    fseek(file, 0, SEEK_END);
    record->size = (size_t)ftell(file);
    rewind(file);
    record->bytes = malloc(record->size + 1);
    int whole = record->bytes != NULL && fread(record->bytes, 1, record->size, file) == record->size;
    fclose(file);
    return whole;
}

int main(int count, char **words)
{
    int rounds = count > 1 ? atoi(words[1]) : 5;
    int files = count - 2;
    struct record *records = malloc(sizeof *records * (files > 0 ? files : 1));
    struct work work = { NULL, records, files, 0 };

    for (int i = 0; i < files; i++) {
        if (!read_file(words[i + 2], &records[i])) {
            fprintf(stderr, "%s: cannot be read\n", words[i + 2]);
            return 1;
        }
        if (records[i].size > work.largest)
            work.largest = records[i].size;
    }
    if (files < 1)
        return 1;
    const char *names[] = { "steps", "goref_tidy", "goref_judge" };
    function *calls[] = { steps, goref_tidy, goref_judge };
    for (int i = 0; i < 3; i++) {
        work.call = calls[i];
        double one = least(&work, 1, rounds);
        double four = least(&work, 4, rounds);
        printf("%-12s %8.2f us a record, by four threads %.2f times as many\n", names[i], one / files, 4 * one / four);
    }
    return 0;
}
