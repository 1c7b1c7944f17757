/* host PLAN EVENTS: a small host of the box. It reads a plan and events from two files, plays the events in three
 * ways, each from a fresh state on, and compares what comes of them:
 *
 *     as lines      signalbox_open, signalbox_feed with the bytes cut in odd places, signalbox_finish
 *     as codes      signalbox_run with all events at once
 *     one by one    signalbox_step for each event
 *
 * Before that it loads the plan into memory, signalbox_load, and writes it as a file again, signalbox_write.
 *
 * The lines go to standard output as they come. Status 0: all three gave the same lines, the same state and the same
 * reason not to play on, and the plan came back as it was. Status 1: something differs, or an accident came on an
 * accepted plan; status 2: a file, the output or memory failed. Both say on standard error what it was. The same file
 * is C11 and C++11. */
#include <stdio.h>
#include <stdlib.h>
#include <string.h>

#include "signalbox.h"

enum { DONE = 0, WRONG = 1, FAILED = 2 };

/* The longest piece that is fed. */
enum { PIECE = 509 };

/* Bytes that grow. */
typedef struct {
    uint8_t *bytes;
    size_t length;
    size_t room;
} text;

/* What comes of playing all events in one way: a line for the plan and one for each event that was played, why no
 * more were, 0 where all were, and the state at the end. */
typedef struct {
    text lines;
    uint64_t reason;
    signalbox_state state;
} played;

/* The line of a number: how many values it has, and the words before each of them. Where there is none the first word
 * is the whole line. */
typedef struct {
    unsigned number;
    unsigned values;
    const char *words[3];
} wording;

static const wording WORDINGS[] = {
    {SIGNALBOX_REFUSED_ILL_FORMED, 0, {"refused 10", "", ""}},
    {SIGNALBOX_REFUSED_BAD_EVENT, 0, {"refused 11", "", ""}},
    {SIGNALBOX_REFUSED_NOT_RED, 0, {"refused 12", "", ""}},
    {SIGNALBOX_REFUSED_OCCUPIED, 2, {"refused 13 track ", " train ", ""}},
    {SIGNALBOX_REFUSED_HELD, 1, {"refused 14 point ", "", ""}},
    {SIGNALBOX_REFUSED_NOT_GREEN, 0, {"refused 15", "", ""}},
    {SIGNALBOX_REFUSED_HOME_OCCUPIED, 1, {"refused 16 track ", "", ""}},
    {SIGNALBOX_REFUSED_TRAIN_IN, 0, {"refused 17", "", ""}},
    {SIGNALBOX_REFUSED_TRAIN_OUT, 0, {"refused 18", "", ""}},
    {SIGNALBOX_REFUSED_RED, 1, {"refused 19 signal ", "", ""}},
    {SIGNALBOX_ACCIDENT_COLLISION, 1, {"accident 40 track ", "", ""}},
    {SIGNALBOX_ACCIDENT_RUN_THROUGH, 1, {"accident 41 track ", "", ""}},
    {SIGNALBOX_ACCIDENT_DERAILMENT, 1, {"accident 42 point ", "", ""}},
    {SIGNALBOX_GRANTED, 1, {"granted ", "", ""}},
    {SIGNALBOX_CANCELLED, 1, {"cancelled ", "", ""}},
    {SIGNALBOX_ENTERED, 2, {"entered ", " track ", ""}},
    {SIGNALBOX_MOVED, 3, {"moved ", " from ", " to "}},
    {SIGNALBOX_LEFT, 2, {"left ", " from ", ""}},
};

/* A sentence on standard error, and a status to hand back. */
static int tells(int status, const char *what, const char *which)
{
    fprintf(stderr, "host: %s%s\n", what, which);
    return status;
}

/* Makes room for so many more bytes. */
static int grows(text *t, size_t more)
{
    size_t room = t->room;
    uint8_t *bytes;
    if (more <= t->room - t->length)
        return DONE;
    while (room - t->length < more) {
        if (room > SIZE_MAX / 2)
            return tells(FAILED, "there is too little memory", "");
        room = room ? 2 * room : 4096;
    }
    bytes = (uint8_t *)realloc(t->bytes, room);
    if (!bytes)
        return tells(FAILED, "there is too little memory", "");
    t->bytes = bytes;
    t->room = room;
    return DONE;
}

static int appends(text *t, const void *bytes, size_t length)
{
    if (grows(t, length) != DONE)
        return FAILED;
    if (length)
        memcpy(t->bytes + t->length, bytes, length);
    t->length += length;
    return DONE;
}

/* Reads a file, whole or so many bytes of it. */
static int reads(text *t, const char *path, size_t most)
{
    size_t count;
    int failed;
    FILE *file = fopen(path, "rb");
    if (!file)
        return tells(FAILED, "can't open ", path);
    do {
        if (grows(t, 4096) != DONE) {
            fclose(file);
            return FAILED;
        }
        count = t->room - t->length < most - t->length ? t->room - t->length : most - t->length;
        count = fread(t->bytes + t->length, 1, count, file);
        t->length += count;
    } while (count);
    failed = ferror(file);
    if (fclose(file) || failed)
        return tells(FAILED, "can't read ", path);
    return DONE;
}

/* Whether nothing was played, for the plan or the state forbids every event. A step says so as its answer. */
static int plays_nothing(uint64_t code)
{
    return SIGNALBOX_IS_FORM(code) || SIGNALBOX_NUMBER(code) == SIGNALBOX_REFUSED_ILL_FORMED;
}

/* The line of an answer's code. */
static int answer_line(text *t, uint64_t code)
{
    size_t i;
    unsigned v;
    char number[24];
    for (i = 0; i < sizeof WORDINGS / sizeof WORDINGS[0]; i++) {
        const wording *w = &WORDINGS[i];
        if (SIGNALBOX_NUMBER(code) != w->number || code >> (8 * (w->values + 1)) != 0)
            continue;
        if (appends(t, w->words[0], strlen(w->words[0])) != DONE)
            return FAILED;
        for (v = 0; v < w->values; v++) {
            snprintf(number, sizeof number, "%u", (unsigned)SIGNALBOX_VALUE(code, v));
            if (v && appends(t, w->words[v], strlen(w->words[v])) != DONE)
                return FAILED;
            if (appends(t, number, strlen(number)) != DONE)
                return FAILED;
        }
        return appends(t, "\n", 1);
    }
    snprintf(number, sizeof number, "%llx", (unsigned long long)code);
    return tells(WRONG, "no answer has the code 0x", number);
}

/* The line for the plan, from the code of signalbox_check. */
static int plan_line(text *t, uint64_t code)
{
    char line[SIGNALBOX_LINE + 1];
    if (SIGNALBOX_IS_FORM(code))
        snprintf(line, sizeof line, "form %u at %u\n", (unsigned)SIGNALBOX_NUMBER(code),
                 (unsigned)SIGNALBOX_OFFSET(code));
    else if (code == SIGNALBOX_ACCEPTED)
        snprintf(line, sizeof line, "accepted\n");
    else
        snprintf(line, sizeof line, "rule %u row %u\n", (unsigned)SIGNALBOX_RULE(code), (unsigned)SIGNALBOX_ROW(code));
    return appends(t, line, strlen(line));
}

/* Writes lines to standard output at once, and keeps them to be compared. */
static int says(played *p, const uint8_t *lines, size_t length)
{
    if (fwrite(lines, 1, length, stdout) != length || fflush(stdout))
        return tells(FAILED, "can't write the lines", "");
    return appends(&p->lines, lines, length);
}

/* As lines. A real host feeds what has come, as it comes; here the pieces have odd lengths. One buffer serves for
 * all: it has room for the lines of the longest piece, whatever is unfinished. Only after a call that has done
 * everything comes another, so that the loop goes on or ends. */
static int by_lines(played *p, const text *plan, const text *events)
{
    static const size_t PIECES[] = {1, 2, 3, 5, 1, 1, 64, 7, PIECE, 4, 2};
    uint8_t out[SIGNALBOX_FEED_ROOM(SIGNALBOX_EVENT - 1, PIECE)];
    size_t at = 0, turn = 0, piece;
    signalbox_state *s = &p->state;
    signalbox_outcome o = signalbox_open(plan->bytes, plan->length, out, sizeof out);
    signalbox_fresh(s->cells, s->holds, s->unfinished);
    if (says(p, out, o.written) != DONE)
        return FAILED;
    while (o.code == 0 && at < events->length) {
        piece = PIECES[turn++ % (sizeof PIECES / sizeof PIECES[0])];
        if (piece > events->length - at)
            piece = events->length - at;
        o = signalbox_feed(plan->bytes, plan->length, s->cells, s->holds, s->unfinished, events->bytes + at, piece, out,
                           sizeof out);
        at += piece;
        if (says(p, out, o.written) != DONE)
            return FAILED;
    }
    if (o.code == 0) {
        o = signalbox_finish(plan->bytes, plan->length, s->cells, s->holds, s->unfinished, out, sizeof out);
        if (says(p, out, o.written) != DONE)
            return FAILED;
    }
    p->reason = o.code;
    return DONE;
}

/* As codes, all events at once, with room for just as many. */
static int by_run(played *p, uint64_t verdict, const text *plan, const text *events)
{
    size_t i, room = SIGNALBOX_RUN_ROOM(events->length);
    signalbox_outcome o;
    signalbox_state *s = &p->state;
    int status = plan_line(&p->lines, verdict);
    uint64_t *answers = room ? (uint64_t *)calloc(room, sizeof *answers) : NULL;
    if (room && !answers)
        return tells(FAILED, "there is too little memory", "");
    signalbox_fresh(s->cells, s->holds, s->unfinished);
    o = signalbox_run(plan->bytes, plan->length, s->cells, s->holds, events->bytes, events->length, answers, room);
    p->reason = o.code;
    for (i = 0; i < o.written && status == DONE; i++)
        status = answer_line(&p->lines, answers[i]);
    free(answers);
    return status;
}

/* One by one. The last event may be incomplete; it is given as it is. Where there is none, reading alone says why
 * none would be played. */
static int by_steps(played *p, uint64_t verdict, const text *plan, const text *events)
{
    size_t at, length;
    uint64_t code;
    signalbox_state *s = &p->state;
    int status = plan_line(&p->lines, verdict);
    signalbox_fresh(s->cells, s->holds, s->unfinished);
    if (events->length == 0)
        p->reason = signalbox_read(plan->bytes, plan->length);
    for (at = 0; at < events->length && p->reason == 0 && status == DONE; at += length) {
        length = events->length - at < SIGNALBOX_EVENT ? events->length - at : SIGNALBOX_EVENT;
        code = signalbox_step(plan->bytes, plan->length, s->cells, s->holds, events->bytes + at, length);
        if (plays_nothing(code))
            p->reason = code;
        else
            status = answer_line(&p->lines, code);
        if (verdict == SIGNALBOX_ACCEPTED && SIGNALBOX_IS_ACCIDENT(code))
            return tells(WRONG, "an accident came on an accepted plan", "");
    }
    return status;
}

/* Field by field: between the arrays of a state there may be bytes that mean nothing. */
static int same_state(const signalbox_state *a, const signalbox_state *b)
{
    return memcmp(a->cells, b->cells, sizeof a->cells) == 0 && memcmp(a->holds, b->holds, sizeof a->holds) == 0
        && memcmp(a->unfinished, b->unfinished, sizeof a->unfinished) == 0;
}

/* Whether a way came to the same as the lines did. */
static int compares(const played *lines, const played *other, const char *way)
{
    if (lines->reason != other->reason)
        return tells(WRONG, "why no more is played is another reason ", way);
    if (lines->lines.length != other->lines.length
        || memcmp(lines->lines.bytes, other->lines.bytes, lines->lines.length) != 0)
        return tells(WRONG, "the lines are others ", way);
    if (!same_state(&lines->state, &other->state))
        return tells(WRONG, "the state at the end is another ", way);
    return DONE;
}

/* Why no more was played. A form is the plan's fault, and stands in its line; the others don't come here, for the
 * state started fresh and the room is computed, and are told if they do. */
static int explains(uint64_t reason)
{
    if (reason == 0 || SIGNALBOX_IS_FORM(reason))
        return DONE;
    if (reason == SIGNALBOX_REFUSED_ILL_FORMED)
        return tells(WRONG, "the state is not well formed", "");
    if (reason == SIGNALBOX_NO_ROOM)
        return tells(WRONG, "there is too little room", "");
    return tells(WRONG, "no reason has the code that came", "");
}

/* Keeps the plan: it is loaded, and what was loaded is written again. A host that alters plans does the one, alters the
 * image (docs/IMAGE.md) and does the other; what comes is read, so that it can be checked and played. The buffer has a
 * byte more than the file here, to see that it stays; a room that is a byte short is told, and nothing is written. */
static int keeps(const text *plan)
{
    enum { MARK = 0x5a };
    signalbox_image image, was;
    uint8_t out[SIGNALBOX_LARGEST_PLAN + 1];
    uint64_t code;
    size_t i;
    memset(&image, MARK, sizeof image);
    memset(out, MARK, sizeof out);
    code = signalbox_load(plan->bytes, plan->length, &image);
    if (code != signalbox_read(plan->bytes, plan->length))
        return tells(WRONG, "loading and reading differ", "");
    if (code != 0) {
        for (i = 0; i < sizeof image.bytes; i++)
            if (image.bytes[i] != MARK)
                return tells(WRONG, "a file that is no plan has altered the image", "");
        return DONE;
    }
    was = image;
    if (signalbox_write(&image, out, plan->length - 1) != SIGNALBOX_NO_ROOM || out[0] != MARK)
        return tells(WRONG, "the plan is written where there is too little room", "");
    code = signalbox_write(&image, out, sizeof out);
    if (!SIGNALBOX_IS_WRITTEN(code) || code >> 24 != 0)
        return tells(WRONG, "the plan that was loaded is not written", "");
    if (SIGNALBOX_LENGTH(code) != plan->length || memcmp(out, plan->bytes, plan->length) != 0)
        return tells(WRONG, "the plan that was loaded is written as another", "");
    if (out[plan->length] != MARK)
        return tells(WRONG, "a byte past the file is written", "");
    if (memcmp(&image, &was, sizeof image) != 0)
        return tells(WRONG, "the plan in memory was altered as it was written", "");
    return DONE;
}

/* A real host goes no further than signalbox_check where the plan is not accepted. This one does, like the program,
 * to show what goes wrong. */
static int plays(const text *plan, const text *events)
{
    played ways[3];
    int status;
    size_t i;
    uint64_t verdict = signalbox_check(plan->bytes, plan->length);
    if (signalbox_read(plan->bytes, plan->length) != (SIGNALBOX_IS_FORM(verdict) ? verdict : 0))
        return tells(WRONG, "reading and checking differ", "");
    memset(ways, 0, sizeof ways);
    status = keeps(plan);
    if (status == DONE)
        status = by_lines(&ways[0], plan, events);
    if (status == DONE)
        status = by_run(&ways[1], verdict, plan, events);
    if (status == DONE)
        status = by_steps(&ways[2], verdict, plan, events);
    if (status == DONE)
        status = compares(&ways[0], &ways[1], "by signalbox_run");
    if (status == DONE)
        status = compares(&ways[0], &ways[2], "by signalbox_step");
    if (status == DONE)
        status = explains(ways[0].reason);
    for (i = 0; i < sizeof ways / sizeof ways[0]; i++)
        free(ways[i].lines.bytes);
    return status;
}

int main(int count, char **words)
{
    text plan = {NULL, 0, 0}, events = {NULL, 0, 0};
    int status;
    if (count != 3)
        return tells(FAILED, "host PLAN EVENTS", "");
    status = reads(&plan, words[1], SIGNALBOX_LARGEST_PLAN + 1);
    if (status == DONE)
        status = reads(&events, words[2], SIZE_MAX);
    if (status == DONE)
        status = plays(&plan, &events);
    free(plan.bytes);
    free(events.bytes);
    if (fclose(stdout) && status == DONE)
        status = tells(FAILED, "can't write the lines", "");
    return status;
}
