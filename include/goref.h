/* goref in a process of your own: records and lines, and sessions that stand between calls.
 *
 *     cc caller.c libgoref.a        or        cc caller.c -L DIR -lgoref -Wl,-rpath,DIR
 *
 * What holds of all calls. A text that is read has `size` bytes of any kind, and isn't changed. A
 * text that is told goes into `room`, which has `place` bytes and is the caller's: the whole text
 * where it fits, else as much of it as there is place for. Nothing follows the text, no NUL either,
 * and the rest of the room stays as it is. `*length` becomes the length of the whole text; where
 * that is more than `place`, call again with as much. The status doesn't depend on the room.
 *
 * The caller's to see to, since no call can check it: that no pointer is null (a text or a room of
 * no bytes has one too) and none overlaps another; that a call has 1 MB of stack; that it isn't
 * made from a signal handler, or in a process that was forked off one with threads.
 *
 * Any number of threads may call at once. Memory comes from `malloc`; what a session doesn't keep
 * goes back before a call returns. A record has at most 16,777,216 bytes.
 */
#ifndef GOREF_H
#define GOREF_H

#include <stddef.h>
#include <stdint.h>

#ifdef __cplusplus
extern "C" {
#endif

/* ---- Calls that keep nothing. They give the status that the program `goref` would end with. With
 * 0 the text is what was asked for, which ends with a line end if it has any byte. With 1 and 3 it
 * is the reason, without a line end: what follows `goref: ` where the program says it, as `no game
 * tree`; with 3 that is `out of memory`. */

/* The answers to lines of the Go Text Protocol version 2, on a new board that has `lines` lines at
 * first, 1 to 25. A last line without a line end is answered too, and nothing after `quit`; a line
 * that wants a file gets `? cannot load file`. 0, also where a line was answered `? out of memory`
 * and changed nothing; 2 for another number of lines, with no text; 3 where there was no memory for
 * the answers. */
uint8_t goref_answers(uint8_t lines, const uint8_t *source, size_t size,
                      uint8_t *room, size_t place, size_t *length);

/* The verdict on the game of a record in SGF, the main line of its first tree, in three lines: how
 * many moves it has, passes among them, as `moves 57`; the score by area, as `score B+3.5`, `score
 * W+10` or `score 0`; and `stated agrees` or `stated differs`, or `stated none` where the record
 * states no score in points. Without a size the board has 19 lines. 0; 1 where the source is no
 * record, or a size, komi, point or move in it can't be, as `move 2 is on a stone`; 3 where there
 * was no memory. */
uint8_t goref_judge(const uint8_t *source, size_t size,
                    uint8_t *room, size_t place, size_t *length);

/* The canonical spelling of a record in SGF, each tree on its own line; what stands around the trees
 * is left out. 0; 1 where the source is no record; 3 where there was no memory. */
uint8_t goref_tidy(const uint8_t *source, size_t size,
                   uint8_t *room, size_t place, size_t *length);

/* Where the next game of an archive stands: the first game tree in `source` that begins at byte
 * `from` or later. Bytes are counted from 0, and whatever stands between game trees is passed over.
 * 0 where it is whole: it stands from `*begin`, its `(`, up to `*end`, the place after its `)`, so
 * that `goref_judge(source + *begin, *end - *begin, ...)` judges it alone. 1 where no tree begins
 * from there on: both places become `size`. 2 where the tree that begins at `*begin` isn't whole:
 * `*end` becomes the place where it stops to be one, which is after `*begin`. Then `goref_tidy` of
 * the bytes from `*begin` on, if a record may have as many, says why, with places counted from
 * `*begin`.
 *
 * Begin with 0 and go on with `*end`, also after 2, until the status is 1: that goes over the
 * archive once, and ends. After 2 the next tree may be a part of the broken one. An archive may have
 * any size. No memory is taken. */
uint8_t goref_next_game(const uint8_t *source, size_t size, size_t from,
                        size_t *begin, size_t *end);

/* ---- Sessions.
 *
 *     goref_session game = GOREF_NO_SESSION;
 *     goref_open(19, &game);
 *     goref_send(&game, (const uint8_t *)"play b d4\n", 10, &length);     // 0; length is 3
 *     goref_take(&game, room, sizeof room, &length);                      // "=\n\n"
 *     goref_close(&game);
 *
 * All that is sent to a session is one conversation, and its answers are those of `goref gtp`.
 *
 * A `goref_session` is the caller's and holds one pointer, null where there is no session: set it
 * to GOREF_NO_SESSION before its first use, and leave what is in it to these calls. A session takes
 * 72 kB at first; after 250 moves on 19 lines it has asked for 490 kB, of which 160 kB are in memory.
 * Any number of sessions may stand at once.
 *
 * The caller's to see to: that a `goref_session` holds what these calls put there; that it isn't
 * copied and then used under both names; that no two threads use one session at once. A session may
 * go from thread to thread where a lock, a join or the like orders the calls. */

typedef struct goref_session {
    void *session;
} goref_session;

#define GOREF_NO_SESSION { 0 }

/* A new session on a board that has `lines` lines, 1 to 25. A session that the handle held is closed.
 * 0; 2 for another number of lines; 3 where there was no memory. With 2 and 3 the handle stays as it
 * was. */
uint8_t goref_open(uint8_t lines, goref_session *handle);

/* Answers the lines of a text one after another, up to `quit`. A last line without a line end is
 * answered too, so cut no line in two. The answers stand in the session until the next text, and
 * `*length` becomes their length. A line that wants a file gets `? cannot load file`.
 * 0: all lines were answered. 1: `quit` was answered, in this text or an earlier one, and no line
 * after it. 3: there was no memory for an answer: the answers end within it, its command was carried
 * out, no line after it was begun, and the session goes on with the next text. 4: the handle has no
 * session, and `*length` becomes 0. */
uint8_t goref_send(goref_session *handle, const uint8_t *text, size_t size, size_t *length);

/* As goref_send, and each line that wants a file is given these bytes, whatever the name. Of a file
 * that is longer than a record may be, one byte more than that is enough. */
uint8_t goref_give(goref_session *handle, const uint8_t *text, size_t size,
                   const uint8_t *file, size_t file_size, size_t *length);

/* The name of the file that a line wants, for goref_give: 0; or 1 where it wants none, with no text.
 * Of a text that has several lines the first is asked. */
uint8_t goref_wants(const uint8_t *line, size_t size, uint8_t *room, size_t place, size_t *length);

/* The answers to the last text that was sent; a second call gives the same. 0; 4 where the handle
 * has no session, with no text. */
uint8_t goref_take(goref_session *handle, uint8_t *room, size_t place, size_t *length);

/* Closes a session, and gives its memory back. A handle without one stays so. */
void goref_close(goref_session *handle);

/* ---- Calls without text.
 *
 *     goref_played played;
 *     uint8_t colours[GOREF_MAX_POINTS];
 *     goref_play(&game, GOREF_BLACK, 3 * 19 + 3, &played, sizeof played);  // play b d4
 *     goref_board(&game, colours, sizeof colours, &length);                // colours[60] is 1
 *     goref_undo(&game, 1);
 *
 * They act on the game of a session, the same that lines act on, and lines go on from what they leave.
 * `quit` ends none of them. A point is row * lines + column, from 0, with rows from the bottom: A1 is
 * 0, and B1 is 1. With any status but GOREF_OK the game is as before.
 *
 * The caller's to see to is what is said above. */

#define GOREF_MAX_SIZE 25
#define GOREF_MAX_POINTS 625

/* What a status means, in each of these calls. */
enum {
    GOREF_OK = 0,
    GOREF_NOTHING = 1,   /* there are fewer moves to undo */
    GOREF_INVALID = 2,   /* a colour, a komi or a rule that can't be; a rule after a move */
    GOREF_NO_MEMORY = 3, /* only from calls that play or try a play */
    GOREF_CLOSED = 4,    /* the handle has no session */
    GOREF_OCCUPIED = 5,  /* a stone stands there */
    GOREF_REPEATS = 6,   /* the superko rule forbids it */
    GOREF_OFF_BOARD = 8  /* a point past the board that isn't GOREF_PASS */
};

#define GOREF_EMPTY 0
#define GOREF_BLACK 1
#define GOREF_WHITE 2
#define GOREF_POSITIONAL 0
#define GOREF_SITUATIONAL 1
#define GOREF_PASS 65535

/* What a play says of itself. What it doesn't say has all bits set. */
typedef struct goref_played {
    uint64_t repeats;    /* GOREF_REPEATS: after how many moves the position stood first */
    uint16_t captured;   /* GOREF_OK: how many stones of the opponent it took */
    uint16_t lost;       /* GOREF_OK: how many of its own colour, by suicide */
    uint8_t reserved[4]; /* 0 */
} goref_played;

/* Plays a move, as `play` does. `*played` is filled as a room is: as many bytes of it as `place` says.
 * GOREF_OK, INVALID, NO_MEMORY, CLOSED, OCCUPIED, REPEATS, OFF_BOARD. */
uint8_t goref_play(goref_session *handle, uint8_t colour, uint16_t point, goref_played *played, size_t place);

/* Takes so many moves back, as so many times `undo`; none if there are fewer. It takes no memory.
 * GOREF_OK, also for 0 moves; NOTHING, CLOSED. */
uint8_t goref_undo(goref_session *handle, size_t count);

/* Whether a move is legal: GOREF_OK, or what goref_play would say. The move isn't played. */
uint8_t goref_is_legal(goref_session *handle, uint8_t colour, uint16_t point);

/* Whether each point is a legal play of a colour, in the order of points: a byte a point, 1 or 0, as far as
 * they fit; `*length` becomes the number of points. GOREF_OK; INVALID, NO_MEMORY, CLOSED, with no byte. */
uint8_t goref_legal(goref_session *handle, uint8_t colour, uint8_t *room, size_t place, size_t *length);

/* The colour of each point, a byte a point, as far as they fit; `*length` becomes the number of points.
 * GOREF_OK; CLOSED, with no byte. */
uint8_t goref_board(goref_session *handle, uint8_t *room, size_t place, size_t *length);

/* The points of each colour: its stones, and empty points that lead to no other. GOREF_OK, CLOSED. */
uint8_t goref_area(goref_session *handle, uint16_t *black, uint16_t *white);

/* What `final_score` answers: Black's area less White's less the komi, in hundredths of a point.
 * GOREF_OK, CLOSED. */
uint8_t goref_score(goref_session *handle, int64_t *hundredths);

/* What `reg_genmove` answers: a point, or GOREF_PASS. GOREF_OK, INVALID, NO_MEMORY, CLOSED. */
uint8_t goref_choose(goref_session *handle, uint8_t colour, uint16_t *point);

/* Sets the komi in hundredths of a point, at most 99,999,999,999 on either side. GOREF_OK, INVALID, CLOSED. */
uint8_t goref_set_komi(goref_session *handle, int64_t hundredths);

/* Sets the superko rule while there is no move. GOREF_OK, INVALID, CLOSED. */
uint8_t goref_set_superko(goref_session *handle, uint8_t superko);

#ifdef __cplusplus
}
#endif

#endif
