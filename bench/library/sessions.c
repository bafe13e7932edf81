/* Times sessions of the library: sessions ROUNDS
 * A game is 250 plays on distinct points of 19 lines in a drawn order, so each of them is legal. The
 * least of all rounds is printed, in microseconds of a processor for a line. */
#include <goref.h>
#include <malloc.h>
#include <stdio.h>
#include <stdlib.h>
#include <string.h>
#include <time.h>

enum { MOVES = 250, GAMES = 1000, POINTS = 361 };

static char plays[MOVES][16];
static char text[MOVES * 16];
static size_t ends[MOVES];

static void draw_game(void)
{
    static const char columns[] = "abcdefghjklmnopqrst";
    int points[POINTS];
    uint32_t state = 2026;
    size_t end = 0;

    for (int i = 0; i < POINTS; i++)
        points[i] = i;
    for (int i = POINTS - 1; i > 0; i--) {
        state ^= state << 13;
        state ^= state >> 17;
        state ^= state << 5;
        int j = (int)(state % (uint32_t)(i + 1)), point = points[i];
        points[i] = points[j];
        points[j] = point;
    }
    for (int i = 0; i < MOVES; i++) {
        sprintf(plays[i], "play %c %c%d\n", "bw"[i % 2], columns[points[i] % 19], points[i] / 19 + 1);
        strcpy(text + end, plays[i]);
        ends[i] = end += strlen(plays[i]);
    }
}

static double now(void)
{
    struct timespec time;
    clock_gettime(CLOCK_PROCESS_CPUTIME_ID, &time);
    return 1e6 * time.tv_sec + 1e-3 * time.tv_nsec;
}

static size_t taken(void)
{
    struct mallinfo2 all = mallinfo2();
    return all.uordblks + all.hblkhd;
}

/* How many bytes of this process are in memory. */
static size_t resident(void)
{
    unsigned long all = 0, here = 0;
    FILE *file = fopen("/proc/self/statm", "r");

    if (file == NULL || fscanf(file, "%lu %lu", &all, &here) != 2)
        exit(3);
    fclose(file);
    return here * 4096;
}

static goref_session games[GAMES];

/* Opens a number of games. */
static void open_games(int count)
{
    for (int game = 0; game < count; game++)
        if (goref_open(19, &games[game]) != 0)
            exit(3);
}

static void close_games(int count)
{
    for (int game = 0; game < count; game++)
        goref_close(&games[game]);
}

/* Each line of each game, the games in turn. */
static void play_games(int count)
{
    uint8_t room[64];
    size_t length;

    for (int move = 0; move < MOVES; move++) {
        for (int game = 0; game < count; game++) {
            goref_send(&games[game], (const uint8_t *)plays[move], strlen(plays[move]), &length);
            if (goref_take(&games[game], room, sizeof room, &length) != 0 || length != 3)
                exit(1);
        }
    }
}

/* Each line by all lines of its game so far. */
static void answer_games(void)
{
    static uint8_t room[4096];
    size_t length;

    for (int move = 0; move < MOVES; move++)
        if (goref_answers(19, (const uint8_t *)text, ends[move], room, sizeof room, &length) != 0)
            exit(1);
}

/* Goes over the games of an archive of `count` games. */
static void go_over(const char *archive, size_t size, int count)
{
    size_t begin, end = 0;
    int seen = 0;

    while (goref_next_game((const uint8_t *)archive, size, end, &begin, &end) == 0)
        seen++;
    if (seen != count)
        exit(1);
}

int main(int words, char **word)
{
    int rounds = words > 1 ? atoi(word[1]) : 5;
    double opens = 1e9, closes = 1e9, one = 1e9, all = 1e9, answers = 1e9, next = 1e9;
    size_t size = 0, fresh = 0, played = 0, touched = 0;

    draw_game();
    char *archive = malloc(GAMES * (MOVES * 6 + 16));
    if (archive == NULL)
        return 3;
    for (int game = 0; game < GAMES; game++) {
        size += (size_t)sprintf(archive + size, "(;SZ[19]");
        for (int move = 0; move < MOVES; move++)
            size += (size_t)sprintf(archive + size, ";%c[%c%c]", "BW"[move % 2], 'a' + move % 19, 'a' + move / 19);
        size += (size_t)sprintf(archive + size, ")\n");
    }
    for (int round = 0; round < rounds; round++) {
        double start = now();
        open_games(1);
        play_games(1);
        double end = now();
        one = end - start < one ? end - start : one;
        close_games(1);

        size_t before = taken(), there = resident();
        start = now();
        open_games(GAMES);
        end = now();
        opens = end - start < opens ? end - start : opens;
        fresh = (taken() - before) / GAMES;
        start = now();
        play_games(GAMES);
        end = now();
        all = end - start < all ? end - start : all;
        played = (taken() - before) / GAMES;
        if (round == 0)
            touched = (resident() - there) / GAMES;
        start = now();
        close_games(GAMES);
        end = now();
        closes = end - start < closes ? end - start : closes;

        start = now();
        answer_games();
        end = now();
        answers = end - start < answers ? end - start : answers;

        start = now();
        go_over(archive, size, GAMES);
        end = now();
        next = end - start < next ? end - start : next;
    }
    printf("a line by a session, one game       %8.2f us\n", one / MOVES);
    printf("a line by a session, %d games     %8.2f us\n", GAMES, all / MOVES / GAMES);
    printf("a line by goref_answers             %8.2f us\n", answers / MOVES);
    printf("goref_open, of %d                 %8.2f us\n", GAMES, opens / GAMES);
    printf("goref_close, of %d after %d moves %7.2f us\n", GAMES, MOVES, closes / GAMES);
    printf("a game of a text of %d            %8.2f us\n", GAMES, next / GAMES);
    printf("a session has %zu bytes of malloc, after %d moves %zu, of which %zu are in memory\n", fresh, MOVES,
           played, touched);
    free(archive);
    return 0;
}
