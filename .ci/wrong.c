/* Wrong boxes for .ci/host: each function of the public face as it is, but for the fault that the environment names as WRONG.
 * Linked before the library with --wrap, so that a host calls these. A host that compares must notice each of them. */
#include <stdlib.h>
#include <string.h>

#include "signalbox.h"

#define FILE_ const uint8_t *file, size_t file_length
#define STATE_ uint8_t cells[SIGNALBOX_CELLS], uint64_t holds[SIGNALBOX_HOLDS]
#define REST_ uint8_t unfinished[SIGNALBOX_UNFINISHED]

void __real_signalbox_fresh(STATE_, REST_);
uint64_t __real_signalbox_read(FILE_);
uint64_t __real_signalbox_load(FILE_, signalbox_image *image);
uint64_t __real_signalbox_write(const signalbox_image *image, uint8_t *out, size_t room);
uint64_t __real_signalbox_check(FILE_);
uint64_t __real_signalbox_step(FILE_, STATE_, const uint8_t *event, size_t event_length);
signalbox_outcome __real_signalbox_run(FILE_, STATE_, const uint8_t *events, size_t events_length, uint64_t *answers, size_t room);
signalbox_outcome __real_signalbox_open(FILE_, uint8_t *out, size_t room);
signalbox_outcome __real_signalbox_feed(FILE_, STATE_, REST_, const uint8_t *bytes, size_t bytes_length, uint8_t *out, size_t room);
signalbox_outcome __real_signalbox_finish(FILE_, STATE_, REST_, uint8_t *out, size_t room);

static int wrong(const char *fault)
{
    const char *named = getenv("WRONG");
    return named && strcmp(named, fault) == 0;
}

/* A hold of a point that no bench plan has: a state that isn't left like that by any event. */
static void spoil(uint64_t *holds)
{
    holds[SIGNALBOX_HOLDS - 1] ^= 1;
}

void __wrap_signalbox_fresh(STATE_, REST_)
{
    static int calls;
    __real_signalbox_fresh(cells, holds, unfinished);
    calls++;
    if (wrong("fresh-ill-formed"))
        cells[0] = cells[1] = 1;
    if (wrong("fresh-unfinished") && calls == 2)
        unfinished[0] = 1;
    if (wrong("fresh-unfinished-first") && calls == 1)
        unfinished[0] = 1;
}

uint64_t __wrap_signalbox_read(FILE_)
{
    uint64_t code = __real_signalbox_read(file, file_length);
    return wrong("read-code") ? code ^ SIGNALBOX_FORM_LEFT_OVER : code;
}

uint64_t __wrap_signalbox_load(FILE_, signalbox_image *image)
{
    uint64_t code = __real_signalbox_load(file, file_length, image);
    if (wrong("load-image"))
        image->bytes[SIGNALBOX_IMAGE - 1] ^= 1;
    if (wrong("unread-load") && code != 0)
        image->bytes[SIGNALBOX_IMAGE / 2] ^= 1;
    return wrong("load-code") ? code ^ SIGNALBOX_FORM_LEFT_OVER : code;
}

uint64_t __wrap_signalbox_write(const signalbox_image *image, uint8_t *out, size_t room)
{
    uint64_t code = __real_signalbox_write(image, out, room);
    if (wrong("write-byte") && SIGNALBOX_NUMBER(code) == SIGNALBOX_WRITTEN)
        out[SIGNALBOX_LENGTH(code) - 1] ^= 1;
    if (wrong("write-past") && SIGNALBOX_NUMBER(code) == SIGNALBOX_WRITTEN && SIGNALBOX_LENGTH(code) < room)
        out[SIGNALBOX_LENGTH(code)] ^= 1;
    if (wrong("write-short") && code == SIGNALBOX_NO_ROOM)
        return SIGNALBOX_WRITTEN | (uint64_t)room << 8;
    if (wrong("write-spoils") && code == SIGNALBOX_NO_ROOM && room)
        out[0] ^= 1;
    if (wrong("write-alters") && SIGNALBOX_IS_WRITTEN(code))
        ((signalbox_image *)(uintptr_t)image)->bytes[SIGNALBOX_IMAGE / 2] ^= 1;
    if (wrong("write-high"))
        return code | (uint64_t)1 << 56;
    if (wrong("write-refuses"))
        return SIGNALBOX_NO_FILE;
    return wrong("write-length") ? code + 256 : code;
}

uint64_t __wrap_signalbox_check(FILE_)
{
    uint64_t code = __real_signalbox_check(file, file_length);
    return wrong("check-code") ? code + 1 : wrong("check-value") ? code + 256 : code;
}

uint64_t __wrap_signalbox_step(FILE_, STATE_, const uint8_t *event, size_t event_length)
{
    uint64_t code = __real_signalbox_step(file, file_length, cells, holds, event, event_length);
    if (wrong("step-state") && event_length < SIGNALBOX_EVENT)
        spoil(holds);
    if (wrong("step-accident"))
        return SIGNALBOX_ACCIDENT_COLLISION;
    if (wrong("step-ill-formed") && event_length < SIGNALBOX_EVENT)
        return SIGNALBOX_REFUSED_ILL_FORMED;
    if (wrong("step-strange"))
        return 99;
    if (wrong("step-high"))
        return code | (uint64_t)1 << 56;
    return wrong("step-value") && SIGNALBOX_NUMBER(code) >= SIGNALBOX_GRANTED ? code + 256 : code;
}

signalbox_outcome __wrap_signalbox_run(FILE_, STATE_, const uint8_t *events, size_t events_length, uint64_t *answers, size_t room)
{
    signalbox_outcome o = __real_signalbox_run(file, file_length, cells, holds, events, events_length, answers, room);
    if (wrong("run-code"))
        answers[o.written - 1] = SIGNALBOX_REFUSED_NOT_RED;
    if (wrong("run-fewer"))
        o.written--;
    if (wrong("run-state"))
        spoil(holds);
    if (wrong("run-reason"))
        o.code = SIGNALBOX_NO_ROOM;
    return o;
}

signalbox_outcome __wrap_signalbox_open(FILE_, uint8_t *out, size_t room)
{
    signalbox_outcome o = __real_signalbox_open(file, file_length, out, room);
    if (wrong("open-line"))
        out[0] ^= 1;
    if (wrong("open-shorter"))
        o.written--;
    if (wrong("open-reason"))
        o.code = SIGNALBOX_NO_ROOM;
    return o;
}

signalbox_outcome __wrap_signalbox_feed(FILE_, STATE_, REST_, const uint8_t *bytes, size_t bytes_length, uint8_t *out, size_t room)
{
    signalbox_outcome o = __real_signalbox_feed(file, file_length, cells, holds, unfinished, bytes, bytes_length, out, room);
    if (wrong("feed-line") && o.written)
        out[o.written - 2] ^= 1;
    if (wrong("feed-fewer"))
        o.written = 0;
    if (wrong("feed-lost"))
        unfinished[0] = 0;
    if (wrong("feed-reason"))
        o.code = SIGNALBOX_REFUSED_ILL_FORMED;
    return o;
}

signalbox_outcome __wrap_signalbox_finish(FILE_, STATE_, REST_, uint8_t *out, size_t room)
{
    signalbox_outcome o = __real_signalbox_finish(file, file_length, cells, holds, unfinished, out, room);
    if (wrong("finish-fewer"))
        o.written = 0;
    if (wrong("finish-state"))
        spoil(holds);
    if (wrong("finish-unfinished"))
        unfinished[0] = 1;
    if (wrong("finish-reason"))
        o.code = SIGNALBOX_NO_ROOM;
    return o;
}
