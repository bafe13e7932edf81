/* A search by random playouts, on the calls of libgoref without text. It plays games on 9 lines against an opponent
 * that plays at random, with each colour in turn, and prints how many it won.
 *
 *     cc -O2 -I include -o search bindings/c/search.c bindings/lib/libgoref.a
 *     ./search SEED [GAMES [PLAYOUTS]]
 *
 * The playouts of a move are shared out among its legal plays; the play that wins most of them is taken. goref alone
 * says what is legal, and who is ahead. */
#include <goref.h>
#include <stdio.h>
#include <stdlib.h>
enum { LINES = 9, POINTS = LINES * LINES, MOST_MOVES = 3 * POINTS };
static uint64_t state;
static goref_played played;

static size_t play_on(goref_session *game, uint8_t mover, uint8_t searcher, int playouts);

static unsigned drawn(unsigned below)
{
    state = state * 6364136223846793005u + 1442695040888963407u;
    return (unsigned)(state >> 33) % below;
}

static void must(uint8_t status)
{
    if (status != GOREF_OK)
        fprintf(stderr, "search: goref says %d\n", status), exit(3);
}

/* Whether a colour is ahead. The komi has half a point, so one of the two is. */
static int is_ahead(goref_session *game, uint8_t colour)
{
    int64_t margin;
    must(goref_score(game, &margin));
    return (margin > 0) == (colour == GOREF_BLACK);
}

/* Whether an empty point has stones of a colour on all sides: to play there would give up one's own area. */
static int is_eye(const uint8_t *board, int point, uint8_t colour)
{
    int row = point / LINES, column = point % LINES;
    return (row == 0 || board[point - LINES] == colour) && (row == LINES - 1 || board[point + LINES] == colour)
        && (column == 0 || board[point - 1] == colour) && (column == LINES - 1 || board[point + 1] == colour);
}

/* Plays on a point drawn of those that are legal and no eye; a pass if there is none. */
static uint16_t play_any(goref_session *game, uint8_t colour)
{
    uint8_t board[POINTS];
    size_t length;
    unsigned first = drawn(POINTS), step = 1 + 3 * drawn(POINTS / 3);
    must(goref_board(game, board, sizeof board, &length));
    /* The step is no multiple of three, so it comes to each of the 81 points. */
    for (unsigned number = 0; number < POINTS; number++) {
        uint16_t point = (uint16_t)((first + number * step) % POINTS);
        if (board[point] == GOREF_EMPTY && !is_eye(board, point, colour)
            && goref_play(game, colour, point, &played, sizeof played) == GOREF_OK)
            return point;
    }
    must(goref_play(game, colour, GOREF_PASS, &played, sizeof played));
    return GOREF_PASS;
}

/* Plays what wins most playouts; a pass if there is no play. */
static uint16_t play_best(goref_session *game, uint8_t colour, int playouts)
{
    uint8_t board[POINTS], legal[POINTS];
    size_t length;
    uint16_t best = GOREF_PASS;
    int most = -1, plays = 0;

    must(goref_board(game, board, sizeof board, &length));
    must(goref_legal(game, colour, legal, sizeof legal, &length));
    for (int point = 0; point < POINTS; point++)
        plays += legal[point] = legal[point] && !is_eye(board, point, colour);
    for (uint16_t point = 0; point < POINTS; point++) {
        int won = 0;
        for (int number = 0; legal[point] && number < 1 + playouts / plays; number++) {
            must(goref_play(game, colour, point, &played, sizeof played));
            size_t moves = play_on(game, colour ^ GOREF_BLACK ^ GOREF_WHITE, GOREF_EMPTY, 0);
            won += is_ahead(game, colour);
            must(goref_undo(game, moves + 1));
        }
        if (legal[point] && won > most)
            most = won, best = point;
    }
    must(goref_play(game, colour, best, &played, sizeof played));
    return best;
}

/* Plays until two passes, and gives how many moves that took. One colour searches, or none. */
static size_t play_on(goref_session *game, uint8_t mover, uint8_t searcher, int playouts)
{
    size_t moves = 0;
    for (int passes = 0; passes < 2 && moves < MOST_MOVES; moves++, mover ^= GOREF_BLACK ^ GOREF_WHITE) {
        uint16_t point = mover == searcher ? play_best(game, mover, playouts) : play_any(game, mover);
        passes = point == GOREF_PASS ? passes + 1 : 0;
    }
    return moves;
}

int main(int count, char **words)
{
    int games = count > 2 ? atoi(words[2]) : 10, playouts = count > 3 ? atoi(words[3]) : 500, won = 0;

    if (count < 2 || count > 4 || games < 1 || playouts < 1)
        return fprintf(stderr, "usage: search SEED [GAMES [PLAYOUTS]]\n"), 2;
    state = strtoull(words[1], NULL, 10);
    for (int number = 0; number < games; number++) {
        goref_session game = GOREF_NO_SESSION;
        uint8_t searcher = number % 2 == 0 ? GOREF_BLACK : GOREF_WHITE;
        must(goref_open(LINES, &game));
        must(goref_set_komi(&game, 750));
        play_on(&game, GOREF_BLACK, searcher, playouts);
        won += is_ahead(&game, searcher);
        goref_close(&game);
    }
    printf("%d of %d games won\n", won, games);
    return 0;
}
