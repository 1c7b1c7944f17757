/* face PLAN EVENTS: tries what include/signalbox.h says of the library beside its declarations, with a plan that reads. The
 * macros, what the state shows, the room to the last byte, the order of reasons, lengths of 0, incomplete events, the plan in
 * memory and as a file again, calls at the same time, and the stack of each call, which it prints. A line for each fault on standard error, and status 1. */
#include <pthread.h>
#include <stdio.h>
#include <stdlib.h>
#include <string.h>

#include "signalbox.h"

enum { LONGEST = 20, STACK = 1 << 18, PAINT = 0xa5, THREADS = 4, TURNS = 200 };

typedef struct {
    const uint8_t *plan, *events;
    size_t plan_length, events_length;
    int faults;
} trial;

static void asks(trial *t, int is_so, const char *what, size_t first, size_t second)
{
    if (is_so)
        return;
    fprintf(stderr, "face: %s (%zu, %zu)\n", what, first, second);
    t->faults++;
}

static signalbox_state fresh(void)
{
    signalbox_state s;
    memset(&s, PAINT, sizeof s);
    signalbox_fresh(s.cells, s.holds, s.unfinished);
    return s;
}

static void codes(trial *t)
{
    const uint64_t moved = 0x03020167, form = 0x2a6401, rule = 0x2fd4;
    asks(t, SIGNALBOX_NUMBER(moved) == SIGNALBOX_MOVED, "the number of a code", 0, 0);
    asks(t, SIGNALBOX_VALUE(moved, 0) == 1 && SIGNALBOX_VALUE(moved, 1) == 2 && SIGNALBOX_VALUE(moved, 2) == 3
             && SIGNALBOX_VALUE(moved, 3) == 0, "the values of a code", 0, 0);
    asks(t, SIGNALBOX_NUMBER(form) == SIGNALBOX_FORM_ENDS_EARLY && SIGNALBOX_OFFSET(form) == 0x2a64, "the offset of a form", 0, 0);
    asks(t, SIGNALBOX_RULE(rule) == SIGNALBOX_RULES && SIGNALBOX_ROW(rule) == 47, "the rule and the row of a verdict", 0, 0);
    asks(t, SIGNALBOX_GREEN(0) != SIGNALBOX_RED && SIGNALBOX_GREEN(46 + 1) == 48, "the green of a route", 0, 0);
    asks(t, SIGNALBOX_GREEN_FOR(48) == 46 + 1, "the route of a green", 0, 0);
    asks(t, !SIGNALBOX_IS_DEED(form) && SIGNALBOX_IS_FORM(form) && SIGNALBOX_IS_DEED(moved) && !SIGNALBOX_IS_FORM(rule)
             && !SIGNALBOX_IS_REFUSAL(moved) && !SIGNALBOX_IS_ACCIDENT(form), "the sort of a code", 0, 0);
    asks(t, SIGNALBOX_LIES_FROM == SIGNALBOX_TRAINS_FROM + SIGNALBOX_TRACKS && SIGNALBOX_SIGNALS_FROM == SIGNALBOX_LIES_FROM + SIGNALBOX_TRACKS
             && SIGNALBOX_CELLS == SIGNALBOX_SIGNALS_FROM + SIGNALBOX_SIGNALS, "where the parts of the cells stand", 0, 0);
    asks(t, SIGNALBOX_TRACK(SIGNALBOX_TRACKS) == SIGNALBOX_SIGNALS_AT && SIGNALBOX_SIGNAL(SIGNALBOX_SIGNALS) == SIGNALBOX_ROUTES_AT
             && SIGNALBOX_ROUTE(SIGNALBOX_ROUTES) == SIGNALBOX_ENTRIES_AT && SIGNALBOX_ENTRY(SIGNALBOX_ENTRIES) == SIGNALBOX_IMAGE,
         "where the sections of an image stand", 0, 0);
    asks(t, SIGNALBOX_ROUTE_SIZE == SIGNALBOX_RELEASES_AT + 1 + SIGNALBOX_RELEASE_SIZE * SIGNALBOX_RELEASES
             && SIGNALBOX_ENTRY_SIZE == SIGNALBOX_ENTRY_CLEAR_AT + 1 + SIGNALBOX_CLEAR, "how long a row of an image is", 0, 0);
}

static const uint8_t bench[] = {4, 0, 2, 0, 0, 0, 2, 0, 0, 2, 3, 0, 1, 3, 0, 0, 0, 2, 0, 1, 2, 0, 2, 2, 3, 2, 2, 3, 1, 2, 0, 1, 3, 2,
                                1, 2, 2, 3, 2, 2, 3, 0, 1, 2, 1, 3, 2, 2, 0, 1, 0, 1, 1, 1};

/* Where each thing of the state stands, on the bench plan: train 7 comes in on track 0, and route 1 turns and holds point 2. */
static void shown(trial *t)
{
    static const uint8_t events[] = {SIGNALBOX_ENTER, 0, 7, SIGNALBOX_REQUEST, 1, 0};
    uint8_t cells[SIGNALBOX_CELLS] = {0};
    uint64_t holds[SIGNALBOX_HOLDS] = {0}, answers[2];
    signalbox_state s = fresh();
    signalbox_outcome o = signalbox_run(bench, sizeof bench, s.cells, s.holds, events, sizeof events, answers, 2);
    cells[SIGNALBOX_TRAINS_FROM + 0] = 7;
    cells[SIGNALBOX_LIES_FROM + 2] = SIGNALBOX_REVERSE;
    cells[SIGNALBOX_SIGNALS_FROM + 1] = SIGNALBOX_GREEN(1);
    holds[2] |= (uint64_t)1 << 1;
    asks(t, signalbox_check(bench, sizeof bench) == SIGNALBOX_ACCEPTED, "the bench plan is accepted", 0, 0);
    asks(t, o.code == 0 && answers[0] == (SIGNALBOX_ENTERED | 7 << 8 | 0 << 16) && answers[1] == (SIGNALBOX_GRANTED | 1 << 8), "two deeds", o.code, o.written);
    asks(t, memcmp(s.cells, cells, sizeof cells) == 0, "what the cells show", 0, 0);
    asks(t, memcmp(s.holds, holds, sizeof holds) == 0, "what the holds show", 0, 0);
}

/* The room that the macros compute is enough, and one less is not. */
static void run_room(trial *t, size_t length)
{
    static const uint8_t bytes[LONGEST] = {0};
    uint64_t answers[LONGEST];
    size_t room = SIGNALBOX_RUN_ROOM(length);
    signalbox_state s = fresh();
    signalbox_outcome o = signalbox_run(t->plan, t->plan_length, s.cells, s.holds, bytes, length, answers, room);
    asks(t, o.code == 0 && o.written == room, "a run has not room enough", length, room);
    if (room) {
        o = signalbox_run(t->plan, t->plan_length, s.cells, s.holds, bytes, length, answers, room - 1);
        asks(t, o.code == SIGNALBOX_NO_ROOM && o.written == 0, "a run does with less room than is asked for", length, room);
    }
    asks(t, length % SIGNALBOX_EVENT == 0 || answers[room - 1] == SIGNALBOX_REFUSED_BAD_EVENT, "the rest of a run", length, room);
}

static void feed_room(trial *t, size_t waiting, size_t length)
{
    static const uint8_t bytes[LONGEST] = {0};
    uint8_t out[LONGEST * SIGNALBOX_LINE];
    size_t room = SIGNALBOX_FEED_ROOM(waiting, length);
    signalbox_outcome o;
    signalbox_state s = fresh();
    s.unfinished[0] = (uint8_t)waiting;
    if (room) {
        o = signalbox_feed(t->plan, t->plan_length, s.cells, s.holds, s.unfinished, bytes, length, out, room - 1);
        asks(t, o.code == SIGNALBOX_NO_ROOM && o.written == 0 && s.unfinished[0] == waiting, "a feed does with less room than is asked for", waiting, length);
    }
    o = signalbox_feed(t->plan, t->plan_length, s.cells, s.holds, s.unfinished, bytes, length, out, room);
    asks(t, o.code == 0, "a feed has not room enough", waiting, length);
    asks(t, s.unfinished[0] == (waiting + length) % SIGNALBOX_EVENT, "what is unfinished after a feed", waiting, length);
    room = s.unfinished[0] ? SIGNALBOX_FINISH_ROOM : 0;
    if (room) {
        o = signalbox_finish(t->plan, t->plan_length, s.cells, s.holds, s.unfinished, out, room - 1);
        asks(t, o.code == SIGNALBOX_NO_ROOM && o.written == 0, "a finish does with less room than is asked for", waiting, length);
    }
    o = signalbox_finish(t->plan, t->plan_length, s.cells, s.holds, s.unfinished, out, room);
    asks(t, o.code == 0 && (o.written != 0) == (room != 0) && s.unfinished[0] == 0, "a finish has not room enough", waiting, length);
}

/* The order of the reasons, and that a call that does nothing leaves all as it was. */
static void reasons(trial *t)
{
    uint8_t out[SIGNALBOX_OPEN_ROOM], was[SIGNALBOX_OPEN_ROOM];
    signalbox_outcome o;
    signalbox_state s = fresh();
    memset(out, PAINT, sizeof out);
    memcpy(was, out, sizeof out);
    s.unfinished[0] = SIGNALBOX_EVENT;
    o = signalbox_feed(NULL, 0, s.cells, s.holds, s.unfinished, t->events, t->events_length, out, 0);
    asks(t, o.code == SIGNALBOX_FORM_ENDS_EARLY, "the form is the first reason", o.code, o.written);
    o = signalbox_feed(t->plan, t->plan_length, s.cells, s.holds, s.unfinished, t->events, t->events_length, out, 0);
    asks(t, o.code == SIGNALBOX_REFUSED_ILL_FORMED, "the state is the second reason", o.code, o.written);
    o = signalbox_finish(t->plan, t->plan_length, s.cells, s.holds, s.unfinished, out, 0);
    asks(t, o.code == SIGNALBOX_REFUSED_ILL_FORMED, "the state is the second reason of finish", o.code, o.written);
    o = signalbox_open(t->plan, t->plan_length, out, SIGNALBOX_OPEN_ROOM - 1);
    asks(t, o.code == SIGNALBOX_NO_ROOM && o.written == 0, "open does with less room than is asked for", o.code, o.written);
    asks(t, memcmp(out, was, sizeof out) == 0 && s.unfinished[0] == SIGNALBOX_EVENT, "nothing is written", 0, 0);
    o = signalbox_open(NULL, 0, out, SIGNALBOX_OPEN_ROOM);
    asks(t, o.code == 0 && o.written == strlen("form 1 at 0\n") && memcmp(out, "form 1 at 0\n", o.written) == 0, "a form's line", o.code, o.written);
}

/* The plan in memory, and as a file again: a file that is no plan leaves the image; an image that is none leaves the buffer,
 * whatever its room; so does a room that is one byte short, and just enough is enough. */
static void images(trial *t)
{
    signalbox_image image, was;
    uint8_t out[SIGNALBOX_LARGEST_PLAN + 1], before[SIGNALBOX_LARGEST_PLAN + 1];
    const uint64_t written = SIGNALBOX_WRITTEN | (uint64_t)t->plan_length << 8;
    size_t last = SIGNALBOX_IMAGE - 1, room;
    memset(&image, PAINT, sizeof image);
    was = image;
    for (room = 0; room < sizeof out; room++)
        out[room] = (uint8_t)(room * 89 + 7);
    memcpy(before, out, sizeof out);
    asks(t, signalbox_load(NULL, 0, &image) == SIGNALBOX_FORM_ENDS_EARLY && memcmp(&image, &was, sizeof image) == 0, "load with no byte", 0, 0);
    for (room = 0; room <= sizeof out; room += sizeof out)
        asks(t, signalbox_write(&image, out, room) == SIGNALBOX_NO_FILE, "an image that is none", room, 0);
    asks(t, signalbox_load(t->plan, t->plan_length, &image) == 0, "a plan is loaded", 0, 0);
    asks(t, image.bytes[SIGNALBOX_TRACKS_AT] == t->plan[0] && memcmp(image.bytes + SIGNALBOX_TRACK(0), t->plan + 1, SIGNALBOX_TRACK_SIZE * (size_t)t->plan[0]) == 0,
         "the tracks of an image", 0, 0);
    was = image;
    asks(t, signalbox_write(&image, NULL, 0) == SIGNALBOX_NO_ROOM, "write with no room", 0, 0);
    asks(t, signalbox_write(&image, out, t->plan_length - 1) == SIGNALBOX_NO_ROOM, "a room one byte short", t->plan_length, 0);
    asks(t, memcmp(out, before, sizeof out) == 0, "a refusal leaves the buffer", 0, 0);
    asks(t, signalbox_write(&image, out, t->plan_length) == written, "a room that is just enough", t->plan_length, 0);
    asks(t, SIGNALBOX_LENGTH(written) == t->plan_length && SIGNALBOX_NUMBER(written) == SIGNALBOX_WRITTEN, "the length of a file", t->plan_length, 0);
    asks(t, memcmp(out, t->plan, t->plan_length) == 0 && memcmp(out + t->plan_length, before + t->plan_length, sizeof out - t->plan_length) == 0, "the file, and what is past it", 0, 0);
    asks(t, memcmp(&image, &was, sizeof image) == 0, "what is written stays", 0, 0);
    image.bytes[0] = 0;
    asks(t, signalbox_write(&image, out, 0) == SIGNALBOX_NO_FILE, "an image without tracks, and no room", 0, 0);
    image = was;
    image.bytes[last] ^= 255;
    asks(t, t->plan_length == SIGNALBOX_LARGEST_PLAN || signalbox_write(&image, out, sizeof out) == SIGNALBOX_NO_FILE, "the last byte of all", last, 0);
}

/* The example of docs/IMAGE.md, on the bench plan: two tracks less, and so two bytes. */
static void example(trial *t)
{
    const size_t bench_length = sizeof bench;
    uint64_t noted[9], said[9];
    size_t count = 0, i;
#include "example.h"
    asks(t, count == 4, "the example of docs/IMAGE.md has four codes", count, 0);
    for (i = 0; i < count; i++)
        asks(t, noted[i] == said[i], "the example of docs/IMAGE.md gives another code than it says", i, noted[i]);
}

static void none(trial *t)
{
    signalbox_outcome o;
    signalbox_state s = fresh();
    asks(t, signalbox_read(NULL, 0) == SIGNALBOX_FORM_ENDS_EARLY, "read with no byte", 0, 0);
    asks(t, signalbox_check(NULL, 0) == SIGNALBOX_FORM_ENDS_EARLY, "check with no byte", 0, 0);
    asks(t, signalbox_step(t->plan, t->plan_length, s.cells, s.holds, NULL, 0) == SIGNALBOX_REFUSED_BAD_EVENT, "step with no byte", 0, 0);
    o = signalbox_run(t->plan, t->plan_length, s.cells, s.holds, NULL, 0, NULL, 0);
    asks(t, o.code == 0 && o.written == 0, "run with no byte", o.code, o.written);
    o = signalbox_feed(t->plan, t->plan_length, s.cells, s.holds, s.unfinished, NULL, 0, NULL, 0);
    asks(t, o.code == 0 && o.written == 0, "feed with no byte", o.code, o.written);
    o = signalbox_finish(t->plan, t->plan_length, s.cells, s.holds, s.unfinished, NULL, 0);
    asks(t, o.code == 0 && o.written == 0, "finish with no byte", o.code, o.written);
    o = signalbox_open(t->plan, t->plan_length, NULL, 0);
    asks(t, o.code == SIGNALBOX_NO_ROOM && o.written == 0, "open with no room", o.code, o.written);
}

/* A step plays the first bytes alone, and fewer are an incomplete event. */
static void steps(trial *t)
{
    const uint8_t event[SIGNALBOX_EVENT + 3] = {SIGNALBOX_REQUEST, 0, 0, SIGNALBOX_CANCEL, 0, 0};
    size_t length;
    uint64_t whole;
    signalbox_state s = fresh();
    whole = signalbox_step(t->plan, t->plan_length, s.cells, s.holds, event, SIGNALBOX_EVENT);
    for (length = 0; length <= sizeof event; length++) {
        s = fresh();
        asks(t, signalbox_step(t->plan, t->plan_length, s.cells, s.holds, event, length)
                 == (length < SIGNALBOX_EVENT ? SIGNALBOX_REFUSED_BAD_EVENT : whole), "a step", length, 0);
    }
}

/* Calls at the same time, each with a state of its own and all with one plan. */
typedef struct {
    const trial *t;
    signalbox_state state;
    uint64_t *answers;
    size_t written;
} beside;

static void *plays(void *given)
{
    beside *b = (beside *)given;
    const trial *t = b->t;
    int turn;
    for (turn = 0; turn < TURNS; turn++) {
        signalbox_fresh(b->state.cells, b->state.holds, b->state.unfinished);
        b->written = signalbox_run(t->plan, t->plan_length, b->state.cells, b->state.holds, t->events, t->events_length, b->answers,
                                   SIGNALBOX_RUN_ROOM(t->events_length)).written;
    }
    return NULL;
}

static void at_once(trial *t)
{
    beside all[THREADS];
    pthread_t threads[THREADS];
    size_t i, room = SIGNALBOX_RUN_ROOM(t->events_length);
    for (i = 0; i < THREADS; i++) {
        all[i].t = t;
        all[i].answers = (uint64_t *)calloc(room + 1, sizeof(uint64_t));
        if (!all[i].answers || pthread_create(&threads[i], NULL, plays, &all[i]))
            exit(2);
    }
    for (i = 0; i < THREADS; i++)
        pthread_join(threads[i], NULL);
    for (i = 0; i < THREADS; i++) {
        asks(t, all[i].written == room && memcmp(all[i].answers, all[0].answers, room * sizeof(uint64_t)) == 0
                 && memcmp(all[i].state.cells, all[0].state.cells, SIGNALBOX_CELLS) == 0, "calls at the same time", i, all[i].written);
    }
    for (i = 0; i < THREADS; i++)
        free(all[i].answers);
}

/* The stack of a call: it is made on one that is painted, and looked at afterwards. signalbox_called calls a function with nine
 * arguments, those of them that it takes, on the stack that ends at a place; at the call BEYOND bytes of it are taken. */
enum { BEYOND = 32 };

void signalbox_called(uintptr_t function, const uintptr_t arguments[9], uint8_t *end);
__asm__(".text\n"
        "signalbox_called:\n"
        "    push %rbp\n"
        "    push %rbx\n"
        "    mov %rsp, %rbp\n"
        "    mov %rdx, %rsp\n"
        "    mov %rdi, %rax\n"
        "    mov %rsi, %rbx\n"
        "    sub $8, %rsp\n"
        "    push 64(%rbx)\n"
        "    push 56(%rbx)\n"
        "    push 48(%rbx)\n"
        "    mov 40(%rbx), %r9\n"
        "    mov 32(%rbx), %r8\n"
        "    mov 24(%rbx), %rcx\n"
        "    mov 16(%rbx), %rdx\n"
        "    mov 8(%rbx), %rsi\n"
        "    mov 0(%rbx), %rdi\n"
        "    call *%rax\n"
        "    mov %rbp, %rsp\n"
        "    pop %rbx\n"
        "    pop %rbp\n"
        "    ret\n");

/* How deep a call goes, its return address included; painted twice, for a byte may be written as it was painted. */
static size_t depth(uintptr_t function, const uintptr_t arguments[9])
{
    static _Alignas(16) uint8_t stack[STACK];
    size_t at, deepest = STACK;
    int paint;
    for (paint = PAINT; paint <= PAINT + 1; paint++) {
        memset(stack, paint, sizeof stack);
        signalbox_called(function, arguments, stack + STACK);
        for (at = 0; at < deepest && stack[at] == paint; at++)
            ;
        deepest = at;
    }
    return STACK - BEYOND - deepest;
}

#define AT(memory) ((uintptr_t)(memory))
#define DEPTH(function, ...) printf(#function " %zu\n", depth(AT(function), (const uintptr_t[9]){__VA_ARGS__}))

static void stacks(trial *t)
{
    size_t codes_room = SIGNALBOX_RUN_ROOM(t->events_length), room = SIGNALBOX_FEED_ROOM(SIGNALBOX_EVENT - 1, t->events_length) + SIGNALBOX_LINE;
    uint64_t *answers = (uint64_t *)calloc(codes_room + 1, sizeof *answers);
    uint8_t *out = (uint8_t *)malloc(room);
    signalbox_state s = fresh();
    signalbox_image image;
    uint8_t file[SIGNALBOX_LARGEST_PLAN];
    if (!answers || !out)
        exit(2);
    DEPTH(signalbox_fresh, AT(s.cells), AT(s.holds), AT(s.unfinished));
    DEPTH(signalbox_read, AT(t->plan), t->plan_length);
    DEPTH(signalbox_load, AT(t->plan), t->plan_length, AT(&image));
    DEPTH(signalbox_write, AT(&image), AT(file), sizeof file);
    DEPTH(signalbox_check, AT(t->plan), t->plan_length);
    DEPTH(signalbox_step, AT(t->plan), t->plan_length, AT(s.cells), AT(s.holds), AT(t->events), t->events_length);
    DEPTH(signalbox_run, AT(t->plan), t->plan_length, AT(s.cells), AT(s.holds), AT(t->events), t->events_length, AT(answers), codes_room);
    DEPTH(signalbox_open, AT(t->plan), t->plan_length, AT(out), room);
    DEPTH(signalbox_feed, AT(t->plan), t->plan_length, AT(s.cells), AT(s.holds), AT(s.unfinished), AT(t->events), t->events_length, AT(out), room);
    s.unfinished[0] = 1;
    DEPTH(signalbox_finish, AT(t->plan), t->plan_length, AT(s.cells), AT(s.holds), AT(s.unfinished), AT(out), room);
    free(answers);
    free(out);
}

static size_t reads(const char *path, uint8_t *bytes, size_t room)
{
    FILE *file = fopen(path, "rb");
    size_t length = file ? fread(bytes, 1, room, file) : 0;
    if (!file || ferror(file) || fclose(file)) {
        fprintf(stderr, "face: can't read %s\n", path);
        exit(2);
    }
    return length;
}

int main(int count, char **words)
{
    static uint8_t plan[SIGNALBOX_LARGEST_PLAN], events[100000];
    trial t = {plan, events, 0, 0, 0};
    size_t length, waiting;
    if (count != 3)
        return 2;
    t.plan_length = reads(words[1], plan, sizeof plan);
    t.events_length = reads(words[2], events, sizeof events);
    codes(&t);
    shown(&t);
    for (length = 0; length < LONGEST; length++) {
        run_room(&t, length);
        for (waiting = 0; waiting < SIGNALBOX_EVENT; waiting++)
            feed_room(&t, waiting, length);
    }
    reasons(&t);
    images(&t);
    example(&t);
    none(&t);
    steps(&t);
    at_once(&t);
    stacks(&t);
    return t.faults ? 1 : 0;
}
