/* Tries sessions of libgoref where memory fails and where threads pass them on.
 *
 *     handles memory      each request for memory of a session fails in turn, and none is lost
 *     handles alive       what begins a game anew, and the end of a session, give memory back
 *     handles threads     two threads take sessions from one queue, and all end as they are to
 *
 * It is linked with `-Wl,--wrap=malloc,--wrap=realloc,--wrap=free`. It ends with 1 where something isn't
 * as it is to be, and says what. */
#define _POSIX_C_SOURCE 200809L
#include <goref.h>
#include <malloc.h>
#include <pthread.h>
#include <stdio.h>
#include <stdlib.h>
#include <string.h>

void *__real_malloc(size_t size);
void *__real_realloc(void *old, size_t size);
void __real_free(void *old);

/* The request that fails, counted from 1, or 0; how many came so far; blocks that weren't freed, and their bytes. */
static long fails_at, requests, blocks, alive;

static void count(void *block, long sign)
{
    if (block != NULL) {
        __atomic_fetch_add(&blocks, sign, __ATOMIC_SEQ_CST);
        __atomic_fetch_add(&alive, sign * (long)malloc_usable_size(block), __ATOMIC_SEQ_CST);
    }
}

void *__wrap_malloc(size_t size)
{
    void *block = fails_at != 0 && ++requests == fails_at ? NULL : __real_malloc(size);
    count(block, 1);
    return block;
}

void *__wrap_realloc(void *old, size_t size)
{
    void *block;

    if (fails_at != 0 && ++requests == fails_at)
        return NULL;
    count(old, -1);
    block = __real_realloc(old, size);
    count(block != NULL ? block : old, 1);
    return block;
}

void __wrap_free(void *old)
{
    count(old, -1);
    __real_free(old);
}

static void see(int is_so, const char *what, long number)
{
    if (!is_so) {
        printf("%s (%ld)\n", what, number);
        exit(1);
    }
}

static const char *const TEXTS[] = {
    "play b e5\nplay w e5\nplay w d4\n", "loadsgf a\nshowboard\n", "genmove b\ngoref-legal w\nlist_commands\n",
    "undo\nundo\nloadsgf b 2\n", "fixed_handicap 4\nclear_board\nfixed_handicap 4\nplay w q10\ngoref-printsgf\n",
};
enum { COUNT = sizeof TEXTS / sizeof *TEXTS };
static const char RECORD[] = "(;SZ[9]KM[6.5]AB[aa][bb:cc];W[ee];B[dd](;W[ff])(;W[gg]))";

static uint8_t give(goref_session *game, const char *text, size_t *length)
{
    return goref_give(game, (const uint8_t *)text, strlen(text), (const uint8_t *)RECORD, strlen(RECORD), length);
}

/* One session with the request of this number failing. Gives how many calls told so. */
static int session(long number)
{
    static uint8_t room[65536];
    goref_session game = GOREF_NO_SESSION;
    size_t length, whole;
    int told = 0;

    requests = 0;
    fails_at = number;
    if (goref_open(19, &game) == 3) {
        see(game.session == NULL, "an open that failed left a session", number);
        see(goref_open(19, &game) == 0, "a second open failed", number);
        told++;
    }
    for (int i = 0; i < COUNT; i++) {
        uint8_t status = give(&game, TEXTS[i], &length);
        see(status == 0 || status == 3, "a status of no kind", number);
        see(goref_take(&game, room, sizeof room - 1, &whole) == 0 && whole == length, "answers of another length", number);
        room[whole < sizeof room ? whole : 0] = '\0';
        told += status == 3 || strstr((char *)room, "? out of memory\n\n") != NULL;
    }
    for (uint16_t point = 0; point < 40; point++) {
        goref_played played;
        uint16_t chosen;
        uint8_t status = goref_play(&game, point % 2 + 1, point, &played, sizeof played);
        see(status == GOREF_OK || status == GOREF_NO_MEMORY || status == GOREF_OCCUPIED, "a play of no kind", number);
        told += status == GOREF_NO_MEMORY;
        told += goref_is_legal(&game, GOREF_BLACK, point + 1) == GOREF_NO_MEMORY;
        told += goref_choose(&game, GOREF_WHITE, &chosen) == GOREF_NO_MEMORY;
    }
    fails_at = 0;
    see(goref_undo(&game, 1) == GOREF_OK, "a play that can't be taken back", number);
    see(give(&game, "showboard\n", &length) == 0 && length > 100, "a session that doesn't go on", number);
    goref_close(&game);
    goref_close(&game);
    see(game.session == NULL && blocks == 0, "memory that isn't given back", number);
    return told;
}

static void memory(void)
{
    long number = 1;
    int told;

    while ((told = session(number)) != 0) {
        see(told == 1, "a request that failed was told more than once", number);
        number++;
    }
    /* A request that isn't told was never made. */
    see(requests < number, "a request that failed in silence", number);
    printf("%ld requests failed in turn\n", number - 1);
}

/* Lines of plays on drawn points, of which many are refused, and no answer's text. */
enum { PLAYS = 12000 };
static char drawn[PLAYS * 12];

static void draw(void)
{
    unsigned state = 1;
    size_t end = 0;

    for (int i = 0; i < PLAYS; i++) {
        state = state * 1103515245u + 12345u;
        unsigned at = state >> 16;
        end += (size_t)sprintf(drawn + end, "play %c %c%u\n", at % 2 ? 'b' : 'w', "ABCDEFGHJ"[at / 2 % 9], at / 18 % 9 + 1);
    }
}

/* What is alive after some lines. */
static long after(goref_session *game, const char *text)
{
    size_t length = 0;

    see(give(game, text, &length) == 0, "a session that doesn't go on", (long)length);
    return alive;
}

/* What a session's room for the answers to the drawn plays takes: as many bytes are refused lines answered. */
static long answered(void)
{
    static char unknown[PLAYS * 12];
    goref_session game = GOREF_NO_SESSION;
    size_t length = 0, end = 0;
    long begun;

    see(goref_open(9, &game) == 0 && give(&game, drawn, &length) == 0, "no session", 0);
    goref_close(&game);
    for (size_t bytes = 0; bytes < length; bytes += strlen("? unknown command\n\n"))
        end += (size_t)sprintf(unknown + end, "x\n");
    see(goref_open(9, &game) == 0, "no session", 1);
    begun = alive;
    begun = after(&game, unknown) - begun;
    goref_close(&game);
    return begun;
}

static void living(void)
{
    static const char *const ANEW[] = {"clear_board\n", "boardsize 9\n", "boardsize 19\n", "fixed_handicap 4\nclear_board\n"};
    static const char MADE[] = "play b b1\nplay w a1\nplay b a2\nplay w e5\nplay b pass\nplay w e6\n";
    goref_session game = GOREF_NO_SESSION;
    long begun, played, loaded;

    draw();
    long room = answered();
    see(goref_open(9, &game) == 0, "no session", 0);
    begun = alive;
    loaded = after(&game, "loadsgf a\n") - begun;
    goref_close(&game);

    see(goref_open(9, &game) == 0, "no session", 1);
    for (size_t i = 0; i < sizeof ANEW / sizeof *ANEW; i++) {
        after(&game, "boardsize 9\n");
        see(after(&game, drawn) > begun + room + 500000, "a long game that takes nothing", (long)i);
        see(after(&game, ANEW[i]) <= begun + room + 64, "a long game that isn't given back", (long)i);
    }
    played = after(&game, MADE);
    see(after(&game, "undo\nundo\nundo\nundo\nundo\nundo\n") == played, "an undo that gives memory back", played);
    see(after(&game, MADE) == played, "moves that want what an undo kept", played);

    after(&game, "boardsize 9\n");
    after(&game, drawn);
    see(after(&game, "loadsgf a\n") <= begun + loaded + room + 64, "a record that keeps the game before", loaded);
    goref_close(&game);
    see(alive == 0 && blocks == 0, "memory that isn't given back", alive);
}

enum { GAMES = 200, MOVES = 120, THREADS = 2 };

static struct entry {
    goref_session game;
    int moves;
} queue[GAMES];
static int waiting[GAMES], first, waiters;
static pthread_mutex_t lock = PTHREAD_MUTEX_INITIALIZER;

/* The game that waits longest, or -1 where none does. */
static int taken(void)
{
    int game = -1;
    pthread_mutex_lock(&lock);
    if (waiters > 0) {
        game = waiting[first];
        first = (first + 1) % GAMES;
        waiters--;
    }
    pthread_mutex_unlock(&lock);
    return game;
}

static void handed_on(int game)
{
    pthread_mutex_lock(&lock);
    waiting[(first + waiters++) % GAMES] = game;
    pthread_mutex_unlock(&lock);
}

static void *worker(void *unused)
{
    int game;
    size_t length;
    while ((game = taken()) >= 0) {
        see(give(&queue[game].game, queue[game].moves % 2 ? "genmove w\n" : "genmove b\n", &length) == 0, "a move failed", game);
        if (++queue[game].moves < MOVES)
            handed_on(game);
    }
    return unused;
}

static void threads(void)
{
    static uint8_t room[2][65536];
    pthread_t thread[THREADS];
    size_t length, whole;

    for (int game = 0; game < GAMES; game++) {
        see(goref_open(9, &queue[game].game) == 0, "no session", game);
        handed_on(game);
    }
    for (int i = 0; i < THREADS; i++)
        see(pthread_create(&thread[i], NULL, worker, NULL) == 0, "no thread", i);
    for (int i = 0; i < THREADS; i++)
        pthread_join(thread[i], NULL);
    for (int game = 0; game < GAMES; game++) {
        give(&queue[game].game, "goref-printsgf\n", &length);
        see(goref_take(&queue[game].game, room[game != 0], sizeof room[0], &whole) == 0, "no answers", game);
        see(whole > 500 && memcmp(room[0], room[game != 0], whole) == 0, "a game that ended otherwise", game);
        goref_close(&queue[game].game);
    }
    see(blocks == 0, "memory that isn't given back", blocks);
    printf("%d games of %d moves by %d threads\n", GAMES, MOVES, THREADS);
}

int main(int words, char **word)
{
    if (words == 2 && strcmp(word[1], "memory") == 0)
        memory();
    else if (words == 2 && strcmp(word[1], "alive") == 0)
        living();
    else if (words == 2 && strcmp(word[1], "threads") == 0)
        threads();
    else
        return 2;
    return 0;
}
