/* library CIRCUIT CERT VIOLATED STIM: the calls of aigcheck_c where memory is refused, and where the line has no room.
 *
 * It is linked with --wrap for malloc and realloc. Each growth of each call is refused in turn: the call answers
 * AIGCHECK_NONE with a count of 0, and where it is asked again, with memory, the line that is due. Each room below the
 * line's length gets AIGCHECK_NONE too, and no byte behind the room is written. It prints how much was tried. */
#include <stdio.h>
#include <stdlib.h>
#include <string.h>

#include "aigcheck.h"

typedef uint8_t (*call_of)(const uint8_t *, size_t, const uint8_t *, size_t, uint8_t *, size_t, size_t *);

struct text {
    uint8_t *bytes;
    size_t length;
};

static long growths, refused = -1;

void *__real_malloc(size_t size);
void *__real_realloc(void *old, size_t size);

void *__wrap_malloc(size_t size)
{
    return growths++ == refused ? NULL : __real_malloc(size);
}

void *__wrap_realloc(void *old, size_t size)
{
    return growths++ == refused ? NULL : __real_realloc(old, size);
}

static void fail(const char *why, long at)
{
    printf("%s (%ld)\n", why, at);
    exit(1);
}

static struct text text_of(const char *name)
{
    struct text text = {malloc(1 << 20), 0};
    FILE *file = fopen(name, "rb");
    if (!file || !text.bytes)
        fail(name, 0);
    text.length = fread(text.bytes, 1, 1 << 20, file);
    fclose(file);
    return text;
}

/* The answer with this much room, and whether no byte behind it was written. */
static uint8_t answer(call_of call, struct text circuit, struct text evidence, size_t room, uint8_t *line,
                      size_t *count)
{
    memset(line, '#', AIGCHECK_ROOM);
    *count = 77;
    uint8_t status = call(circuit.bytes, circuit.length, evidence.bytes, evidence.length, line, room, count);
    for (size_t at = room; at < AIGCHECK_ROOM; at++)
        if (line[at] != '#')
            fail("a byte behind the room is written", room);
    return status;
}

/* How many growths of the call were refused, each with an honest answer. */
static long refuse(call_of call, struct text circuit, struct text evidence, uint8_t status, const char *due)
{
    uint8_t line[AIGCHECK_ROOM];
    size_t count;
    for (long at = 0;; at++) {
        growths = 0;
        refused = at;
        uint8_t got = answer(call, circuit, evidence, AIGCHECK_ROOM, line, &count);
        int reached = growths > at;
        refused = -1;
        if (reached && (got != AIGCHECK_NONE || count != 0))
            fail("an answer where memory was refused", at);
        got = answer(call, circuit, evidence, AIGCHECK_ROOM, line, &count);
        if (got != status || count != strlen(due) || memcmp(line, due, count))
            fail("another answer where it is asked again", at);
        if (!reached)
            return at;
    }
}

/* How many rooms are too small, each with an honest answer. */
static long crowd(call_of call, struct text circuit, struct text evidence, uint8_t status, const char *due)
{
    uint8_t line[AIGCHECK_ROOM];
    size_t count;
    for (size_t room = 0; room <= AIGCHECK_ROOM; room++) {
        uint8_t got = answer(call, circuit, evidence, room, line, &count);
        int fits = room >= strlen(due);
        if (got != (fits ? status : AIGCHECK_NONE) || count != (fits ? strlen(due) : 0))
            fail("another answer in this room", room);
    }
    return strlen(due);
}

int main(int words, char **names)
{
    if (words != 5)
        return 3;
    struct text circuit = text_of(names[1]), certificate = text_of(names[2]);
    struct text violated = text_of(names[3]), stimulus = text_of(names[4]);
    long rooms = 0, tried = refuse(aigcheck_safe, circuit, certificate, AIGCHECK_YES, "yes safe b0\n");
    tried += refuse(aigcheck_run, violated, stimulus, AIGCHECK_YES, "yes run b0\n");
    tried += refuse(aigcheck_safe, circuit, circuit, AIGCHECK_NO, "no 70\n");
    rooms += crowd(aigcheck_safe, circuit, certificate, AIGCHECK_YES, "yes safe b0\n");
    rooms += crowd(aigcheck_run, violated, stimulus, AIGCHECK_YES, "yes run b0\n");
    rooms += crowd(aigcheck_safe, circuit, circuit, AIGCHECK_NO, "no 70\n");
    if (tried < 30)
        fail("few growths were refused", tried);
    printf("%ld growths refused, %ld rooms too small\n", tried, rooms);
    return 0;
}
