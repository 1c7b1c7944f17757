/* The box as a C library, for C11 and C++11: include this file, and link with libsignalbox.a. README.md says what the
 * box is, and examples/host.c is a host that calls every function.
 *
 * A host keeps the bytes of a plan file and a signalbox_state, and lends both at each call:
 *
 *     signalbox_check     first, and once: is this a plan, and is it accepted?
 *     signalbox_fresh     once: the state starts with it
 *     signalbox_step      plays one event, and says its answer as a code
 *     signalbox_run       plays many events, and writes their answers as codes
 *     signalbox_open      writes the line for the plan,
 *     signalbox_feed      plays events as their bytes come, cut anywhere, and writes their answers as lines,
 *     signalbox_finish    says that the input has ended: however it was cut, the lines are what the program prints
 *
 * A host that keeps, alters or writes plans has two more, and needs no state for them:
 *
 *     signalbox_load      reads a plan file into a signalbox_image
 *     signalbox_write     writes an image as the plan file that it is
 *
 * docs/PLAN.md has the plan file byte by byte, and what each answer to an event means; docs/IMAGE.md has the plan in
 * memory, and what each answer to signalbox_write means. This file and the archive are of one tree:
 * sizes stand in both, and nothing notices at the linking where they differ.
 *
 * Nothing is asked of what the bytes say: any bytes as a plan, any state and any bytes as events get an answer, and
 * every call ends.
 *
 * The plan is checked by the host. Events are played on every plan that reads, so that a bad one can be shown to go
 * wrong. Only where signalbox_check gives SIGNALBOX_ACCEPTED is it proved that no accident comes. That the other
 * functions play, or that signalbox_open has written its line, doesn't say so. Give the same plan at every call with
 * the same state.
 *
 * The state is the box's. It starts with signalbox_fresh and goes from call to call as the box left it; the host
 * reads it, and doesn't write it. What is proved of a plan that is accepted is proved of such a state.
 *
 * Memory. All that is lent is there for the call, as long as its length says, and nobody else writes it meanwhile.
 * What is lent to be written, every pointer without const, overlaps nothing else that is lent to the call: bytes and
 * lines need two buffers. Numbers of 64 bits, holds and answers, are aligned as uint64_t is. Where a length or a room
 * is 0 its pointer may be NULL, and no byte is touched; cells, holds, unfinished and an image are never NULL.
 *
 * Threads. The library has no memory of its own that it writes, and keeps nothing from call to call. Calls may run at
 * the same time where none is lent to write what another is lent. Two calls may share a plan, and not a state.
 *
 * What it needs. memcpy and memset, and nothing else: no heap, no files, no clock. The archive is for x86-64 and
 * Linux, and can go into a program or a shared library.
 *
 * Stack. As it was measured on the largest plan, a call takes at most 22,384 bytes: signalbox_run 22,384,
 * signalbox_feed 22,384, signalbox_step 22,352, signalbox_finish 22,336, signalbox_open 22,272, signalbox_check
 * 22,240, signalbox_read 22,208, signalbox_load 11,344, signalbox_write 472, signalbox_fresh 24. The return address and
 * memcpy and memset of the C library there are counted, which on another machine may take some more; arguments on the
 * stack, 24 bytes at most, come on top.
 * Where the dynamic linker looks these two up at their first call, that call took up to 25,320 bytes in all. No theorem
 * bounds a stack: leave some to spare. */
#ifndef SIGNALBOX_H
#define SIGNALBOX_H

#include <stddef.h>
#include <stdint.h>

#ifdef __cplusplus
extern "C" {
#endif

/* The plan file. How many tracks, signals, routes and entries it may have at most, and how many its lists may hold:
 * the path of a route, a clear list, normal points or reverse points, releases. The least is 0 where none is named. */
#define SIGNALBOX_LEAST_TRACKS 1
#define SIGNALBOX_TRACKS 64
#define SIGNALBOX_SIGNALS 32
#define SIGNALBOX_ROUTES 48
#define SIGNALBOX_ENTRIES 16
#define SIGNALBOX_LEAST_PATH 1
#define SIGNALBOX_PATH 32
#define SIGNALBOX_CLEAR 64
#define SIGNALBOX_POINTS 16
#define SIGNALBOX_RELEASES 32

/* The bytes of the largest plan file. A longer file is no plan, and one byte more than this is enough to tell its
 * form: a host need not read the rest. */
#define SIGNALBOX_LARGEST_PLAN 10852

/* A plan in memory. signalbox_load makes one, and signalbox_write takes any bytes as one. It can be copied, and means
 * the same wherever it lies. To keep a plan for long, keep its file: an image of another tree may be of another size.
 *
 * A host that looks at a plan or alters it finds each thing at an offset of its own, as docs/IMAGE.md tells; the others
 * need none of these numbers. A list is its count, and then room for as many as there may be:
 *
 *     bytes[SIGNALBOX_TRACKS_AT], bytes[SIGNALBOX_SIGNALS_AT]      how many tracks, signals,
 *     bytes[SIGNALBOX_ROUTES_AT], bytes[SIGNALBOX_ENTRIES_AT]      routes and entries there are
 *     bytes + SIGNALBOX_TRACK(t)                                   a track: its kind, and its numbers
 *     bytes[SIGNALBOX_SIGNAL(s)]                                   a signal: its home
 *     bytes + SIGNALBOX_ROUTE(r)                                   a route: its start signal, then each list from
 *                                                                  SIGNALBOX_PATH_AT .. SIGNALBOX_RELEASES_AT on
 *     bytes + SIGNALBOX_ENTRY(e)                                   an entry: its track, and its clear list from
 *                                                                  SIGNALBOX_ENTRY_CLEAR_AT on */
#define SIGNALBOX_IMAGE 10852
#define SIGNALBOX_TRACKS_AT 0
#define SIGNALBOX_SIGNALS_AT 257
#define SIGNALBOX_ROUTES_AT 290
#define SIGNALBOX_ENTRIES_AT 9795
#define SIGNALBOX_TRACK_SIZE 4
#define SIGNALBOX_RELEASE_SIZE 2
#define SIGNALBOX_ROUTE_SIZE 198
#define SIGNALBOX_ENTRY_SIZE 66
#define SIGNALBOX_PATH_AT 1
#define SIGNALBOX_CLEAR_AT 34
#define SIGNALBOX_NORMAL_AT 99
#define SIGNALBOX_REVERSE_AT 116
#define SIGNALBOX_RELEASES_AT 133
#define SIGNALBOX_ENTRY_CLEAR_AT 1
#define SIGNALBOX_TRACK(t) (SIGNALBOX_TRACKS_AT + 1 + SIGNALBOX_TRACK_SIZE * (t))
#define SIGNALBOX_SIGNAL(s) (SIGNALBOX_SIGNALS_AT + 1 + (s))
#define SIGNALBOX_ROUTE(r) (SIGNALBOX_ROUTES_AT + 1 + SIGNALBOX_ROUTE_SIZE * (r))
#define SIGNALBOX_ENTRY(e) (SIGNALBOX_ENTRIES_AT + 1 + SIGNALBOX_ENTRY_SIZE * (e))

typedef struct signalbox_image {
    uint8_t bytes[SIGNALBOX_IMAGE];
} signalbox_image;

/* The state, lent as its arrays: s.cells, s.holds and s.unfinished.
 *
 * The cells are trains, lies and signals, one after the other:
 *
 *     cells[SIGNALBOX_TRAINS_FROM + track]     the train on a track, 1 to 255, or SIGNALBOX_NO_TRAIN
 *     cells[SIGNALBOX_LIES_FROM + point]       the lie of a point: SIGNALBOX_NORMAL or SIGNALBOX_REVERSE
 *     cells[SIGNALBOX_SIGNALS_FROM + signal]   SIGNALBOX_RED, or SIGNALBOX_GREEN(route): green for this route, which
 *                                              SIGNALBOX_GREEN_FOR(cell) gives back
 *
 * Bit r of holds[q] says that route r holds the point q: (holds[q] >> r) & 1. A point is named by its track.
 * unfinished is an event that has not come whole yet: how many of its bytes are there, at most SIGNALBOX_EVENT - 1,
 * then these bytes. What stands past them is not looked at, and is 0 after a call that was done. signalbox_step and
 * signalbox_run don't know of it, and leave it waiting.
 *
 * A state is well formed for a plan if no train appears twice, everything beyond the plan's counts is 0, a lie is one
 * of the two, only points are held or reverse, and a green names a route that starts at that signal. From a state
 * that is well formed the box leaves none that is not. */
#define SIGNALBOX_TRAINS_FROM 0
#define SIGNALBOX_LIES_FROM 64
#define SIGNALBOX_SIGNALS_FROM 128
#define SIGNALBOX_CELLS 160
#define SIGNALBOX_HOLDS 64
#define SIGNALBOX_UNFINISHED 3

#define SIGNALBOX_NO_TRAIN 0
#define SIGNALBOX_NORMAL 0
#define SIGNALBOX_REVERSE 1
#define SIGNALBOX_RED 0
#define SIGNALBOX_GREEN(route) ((route) + 1)
#define SIGNALBOX_GREEN_FOR(cell) ((cell) - 1)

typedef struct signalbox_state {
    uint8_t cells[SIGNALBOX_CELLS];
    uint64_t holds[SIGNALBOX_HOLDS];
    uint8_t unfinished[SIGNALBOX_UNFINISHED];
} signalbox_state;

/* The bytes of an event: its kind, and the two that stand beside it here. */
#define SIGNALBOX_EVENT 3

#define SIGNALBOX_REQUEST 1 /* route, 0 */
#define SIGNALBOX_CANCEL 2  /* route, 0 */
#define SIGNALBOX_ENTER 3   /* entry, train */
#define SIGNALBOX_MOVE 4    /* train, 0 */

/* A code is an answer, a form, a verdict or what comes of writing, as one number of 64 bits. The lowest byte is its
 * number, by which all codes are told apart; the bytes above it are its values in the order of the printed line, and
 * nothing stands above these. SIGNALBOX_VALUE(code, 0) is the first. A value of 0 is a number like any other: the first
 * track is track 0. Above the number of a form stands its offset, 16 bits wide, and above that of a broken rule its
 * row. Above SIGNALBOX_WRITTEN stands the length of the file, 16 bits wide.
 *
 *     0x03020167 is "moved 1 from 2 to 3"
 *     0x01020d is "refused 13 track 2 train 1"
 *     0x0c03 is "form 3 at 12"
 *     0x01d0 is "rule 8 row 1"
 *
 * SIGNALBOX_OFFSET is for forms, SIGNALBOX_LENGTH for a file that is written (it is 0 where none is), SIGNALBOX_RULE
 * and SIGNALBOX_ROW are for broken rules. The macros take a code of type uint64_t, and give the same type. */
#define SIGNALBOX_NUMBER(code) ((code) & 255u)
#define SIGNALBOX_VALUE(code, i) (((code) >> (8 * ((i) + 1))) & 255u)
#define SIGNALBOX_OFFSET(code) (((code) >> 8) & 65535u)
#define SIGNALBOX_LENGTH(code) (((code) >> 8) & 65535u)
#define SIGNALBOX_RULE(code) (SIGNALBOX_NUMBER(code) - SIGNALBOX_ACCEPTED)
#define SIGNALBOX_ROW(code) SIGNALBOX_VALUE(code, 0)

/* Of what sort a code is, by the numbers below. */
#define SIGNALBOX_IS_FORM(code) \
    (SIGNALBOX_NUMBER(code) >= SIGNALBOX_FORM_ENDS_EARLY && SIGNALBOX_NUMBER(code) <= SIGNALBOX_FORM_LEFT_OVER)
#define SIGNALBOX_IS_REFUSAL(code) \
    (SIGNALBOX_NUMBER(code) >= SIGNALBOX_REFUSED_ILL_FORMED && SIGNALBOX_NUMBER(code) <= SIGNALBOX_REFUSED_RED)
#define SIGNALBOX_IS_ACCIDENT(code) \
    (SIGNALBOX_NUMBER(code) >= SIGNALBOX_ACCIDENT_COLLISION && SIGNALBOX_NUMBER(code) <= SIGNALBOX_ACCIDENT_DERAILMENT)
#define SIGNALBOX_IS_WRITTEN(code) (SIGNALBOX_NUMBER(code) == SIGNALBOX_WRITTEN)
#define SIGNALBOX_IS_DEED(code) \
    (SIGNALBOX_NUMBER(code) >= SIGNALBOX_GRANTED && SIGNALBOX_NUMBER(code) <= SIGNALBOX_LEFT)

/* Each number with its printed line, values in < >, and when it is given. */

/* Forms: the file is no plan. The offset is that of the first bad byte, where reading stops. */
#define SIGNALBOX_FORM_ENDS_EARLY 1 /* form 1 at <offset>: the file ends early; the offset is its length */
#define SIGNALBOX_FORM_BAD_COUNT 2  /* form 2 at <offset>: a count beyond its limits */
#define SIGNALBOX_FORM_BAD_NUMBER 3 /* form 3 at <offset>: a kind, track or signal that doesn't exist, a listed point
                                       that is none, or an unused byte that is not 0 */
#define SIGNALBOX_FORM_NOT_RISING 4 /* form 4 at <offset>: a list that doesn't rise strictly */
#define SIGNALBOX_FORM_LEFT_OVER 5  /* form 5 at <offset>: bytes are left over; the first of them */

/* Too little room for what is to be written, lines, codes or a plan file. No line is printed for it. */
#define SIGNALBOX_NO_ROOM 6

/* What comes of signalbox_write beside that. No line is printed for these either. */
#define SIGNALBOX_NO_FILE 7   /* there is no file that reads as the image */
#define SIGNALBOX_WRITTEN 120 /* the file is written: SIGNALBOX_IS_WRITTEN(code), and SIGNALBOX_LENGTH(code) is its
                                 length. The code itself is more than this number */

/* Refusals: the event is not done, and the state stays as it was. */
#define SIGNALBOX_REFUSED_ILL_FORMED 10    /* refused 10: the state is not well formed */
#define SIGNALBOX_REFUSED_BAD_EVENT 11     /* refused 11: an incomplete event, an unknown kind, an unused byte that is
                                              not 0, no such route or entry, or train number 0 */
#define SIGNALBOX_REFUSED_NOT_RED 12       /* refused 12: request, the start signal is not red */
#define SIGNALBOX_REFUSED_OCCUPIED 13      /* refused 13 track <track> train <train>: request or entry, a track of the
                                              clear list has a train; the lowest such track, and the train on it */
#define SIGNALBOX_REFUSED_HELD 14          /* refused 14 point <point>: request, a listed point is held by any route
                                              and lies otherwise than the grant would leave it; the lowest such
                                              point */
#define SIGNALBOX_REFUSED_NOT_GREEN 15     /* refused 15: cancel, the start signal is not green for this route */
#define SIGNALBOX_REFUSED_HOME_OCCUPIED 16 /* refused 16 track <track>: cancel, the home track has a train */
#define SIGNALBOX_REFUSED_TRAIN_IN 17      /* refused 17: entry, the train is in the plan already */
#define SIGNALBOX_REFUSED_TRAIN_OUT 18     /* refused 18: move, the train is not in the plan */
#define SIGNALBOX_REFUSED_RED 19           /* refused 19 signal <signal>: move, the signal of its track is red */

/* Accidents: what the event would bring about. It is not done, and the state stays as it was. On an accepted plan,
 * from the fresh state on, none comes. */
#define SIGNALBOX_ACCIDENT_COLLISION 40   /* accident 40 track <track>: entry or move, the track to be entered has a
                                             train, if only the moving one */
#define SIGNALBOX_ACCIDENT_RUN_THROUGH 41 /* accident 41 track <track>: move, the track to be entered is a trailing
                                             point, and the track left is not its leg for its lie */
#define SIGNALBOX_ACCIDENT_DERAILMENT 42  /* accident 42 point <point>: request, a point that has a train would be
                                             turned; the lowest such point */

/* Deeds: the event is done. They alone change the state. */
#define SIGNALBOX_GRANTED 100   /* granted <route> */
#define SIGNALBOX_CANCELLED 101 /* cancelled <route> */
#define SIGNALBOX_ENTERED 102   /* entered <train> track <track> */
#define SIGNALBOX_MOVED 103     /* moved <train> from <from> to <to> */
#define SIGNALBOX_LEFT 104      /* left <train> from <from> */

/* Verdicts: the plan reads. It is accepted, or breaks one of the rules, which are counted from 1; the lowest broken
 * rule with its lowest row, from 0 on, is "rule <rule> row <row>", and its number is SIGNALBOX_ACCEPTED + rule. */
#define SIGNALBOX_ACCEPTED 200 /* accepted: no rule is broken */
#define SIGNALBOX_RULES 12

/* What comes of signalbox_run, signalbox_open, signalbox_feed and signalbox_finish. They do all that they are given,
 * or nothing at all.
 *
 * Where code is 0 the call has done everything that it was given: every event is played, every answer is written, and
 * no byte is to be given again; what signalbox_feed leaves over waits in unfinished. A refusal or an accident is the
 * answer to its event, and doesn't stop those after it. written is how many codes, or bytes, stand at the start of
 * the lent buffer; past them it is as it was.
 *
 * Where code is not 0 nothing is done: the state, unfinished and the buffer are as they were, and written is 0. The
 * code is the first of these reasons that applies:
 *
 *     a form                         the plan doesn't read; signalbox_open writes the form's line instead, with code 0
 *     SIGNALBOX_REFUSED_ILL_FORMED   the state is not well formed, or unfinished says that SIGNALBOX_EVENT bytes or
 *                                    more are there; each asked of the functions that are lent it
 *     SIGNALBOX_NO_ROOM              there is less room than the macros below ask for
 *
 * The same call again comes to the same. So a host goes on only after 0, or after SIGNALBOX_NO_ROOM with more room or
 * with fewer bytes, and can't hang in a loop that plays nothing. */
typedef struct signalbox_outcome {
    uint64_t code;
    size_t written;
} signalbox_outcome;

/* The room that is asked for, and is always enough. Of signalbox_run in codes, one for each event, an incomplete last
 * one too; of the others in bytes, SIGNALBOX_LINE for each line, however short it is. waiting is unfinished[0] before
 * the call; SIGNALBOX_EVENT - 1, its most, gives what is enough for any. signalbox_finish needs none where nothing is
 * unfinished. The macros take lengths of type size_t and give the same type. */
#define SIGNALBOX_LINE 83
#define SIGNALBOX_RUN_ROOM(events_length) \
    ((events_length) / SIGNALBOX_EVENT + ((events_length) % SIGNALBOX_EVENT + SIGNALBOX_EVENT - 1) / SIGNALBOX_EVENT)
#define SIGNALBOX_OPEN_ROOM SIGNALBOX_LINE
#define SIGNALBOX_FEED_ROOM(waiting, bytes_length) \
    (SIGNALBOX_LINE * \
     ((bytes_length) / SIGNALBOX_EVENT + ((bytes_length) % SIGNALBOX_EVENT + (waiting)) / SIGNALBOX_EVENT))
#define SIGNALBOX_FINISH_ROOM SIGNALBOX_LINE

/* Begins: the fresh state (no trains, all points normal, nothing held, all signals red), and no byte of an unfinished
 * event, whatever the memory held. */
void signalbox_fresh(uint8_t cells[SIGNALBOX_CELLS], uint64_t holds[SIGNALBOX_HOLDS],
                     uint8_t unfinished[SIGNALBOX_UNFINISHED]);

/* Whether a file is a plan: 0, or its form. */
uint64_t signalbox_read(const uint8_t *file, size_t file_length);

/* Reads a plan file into an image: gives 0, and the image is the plan's; or gives the form, and the image is as it
 * was. */
uint64_t signalbox_load(const uint8_t *file, size_t file_length, signalbox_image *image);

/* Writes an image as the plan file that it is, at the front of out; past the file out is as it was. Gives the code of
 * SIGNALBOX_WRITTEN with the length. Or out stays as it was, and it gives SIGNALBOX_NO_FILE where no file reads as the
 * image, whatever the room, and after that SIGNALBOX_NO_ROOM where the file is longer than the room. No call gives the
 * length beforehand: SIGNALBOX_LARGEST_PLAN bytes are enough for every plan. out must not overlap the image: the file
 * would be said to be written, and be wrong. A plan that breaks rules is written like any other. What was loaded is
 * written as the same bytes, and what was written loads as the same image. */
uint64_t signalbox_write(const signalbox_image *image, uint8_t *out, size_t room);

/* Whether a file is a plan that is accepted: SIGNALBOX_ACCEPTED, or the rule that it breaks, or its form. */
uint64_t signalbox_check(const uint8_t *file, size_t file_length);

/* Plays one event: the first SIGNALBOX_EVENT bytes, and no byte after them. Fewer are an incomplete event, which is
 * refused by SIGNALBOX_REFUSED_BAD_EVENT. Gives the code of the answer, or, where no event is played, the plan's
 * form; a state that is not well formed is SIGNALBOX_REFUSED_ILL_FORMED whatever the event. Reads the whole plan at
 * each call: many events go faster by the functions below. */
uint64_t signalbox_step(const uint8_t *file, size_t file_length, uint8_t cells[SIGNALBOX_CELLS],
                        uint64_t holds[SIGNALBOX_HOLDS], const uint8_t *event, size_t event_length);

/* Plays all events, and writes the code of each answer. One or two bytes left over at the end are an incomplete
 * event, and are answered by SIGNALBOX_REFUSED_BAD_EVENT: they don't wait for more. room is in codes. */
signalbox_outcome signalbox_run(const uint8_t *file, size_t file_length, uint8_t cells[SIGNALBOX_CELLS],
                                uint64_t holds[SIGNALBOX_HOLDS], const uint8_t *events, size_t events_length,
                                uint64_t *answers, size_t room);

/* Writes the line for the plan: accepted, the rule or the form. It needs no state. Each line ends in byte 10; no byte
 * 0 follows the last. */
signalbox_outcome signalbox_open(const uint8_t *file, size_t file_length, uint8_t *out, size_t room);

/* Takes the next bytes, cut anywhere, plays every event that they make whole, and writes the line of each answer. One
 * or two bytes left over wait in unfinished for the rest. */
signalbox_outcome signalbox_feed(const uint8_t *file, size_t file_length, uint8_t cells[SIGNALBOX_CELLS],
                                 uint64_t holds[SIGNALBOX_HOLDS], uint8_t unfinished[SIGNALBOX_UNFINISHED],
                                 const uint8_t *bytes, size_t bytes_length, uint8_t *out, size_t room);

/* Ends the input: what is unfinished is an incomplete event, with the line of SIGNALBOX_REFUSED_BAD_EVENT, and
 * nothing is unfinished then. Where nothing was, nothing is written. */
signalbox_outcome signalbox_finish(const uint8_t *file, size_t file_length, uint8_t cells[SIGNALBOX_CELLS],
                                   uint64_t holds[SIGNALBOX_HOLDS], uint8_t unfinished[SIGNALBOX_UNFINISHED],
                                   uint8_t *out, size_t room);

#ifdef __cplusplus
}
#endif

#endif
