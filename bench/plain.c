/* A plain judge of logs, written for the benchmark alone and not verified: the same answers as bench_verdict, with the
 * views of every cell kept up to date as the events come. */
#include "plain.h"

#include <string.h>

enum { MOST_BYTES = 60000, MOST_STEPS = 2048, BOARDS = 8, CELLS = 64, NOBODY = 8, WRITERS = 9 };

/* Up to which numbers the writes of each writer are known, and below which they are overwritten. */
struct view {
    uint32_t known[WRITERS];
    uint32_t over[WRITERS];
};

struct step {
    char letter;
    uint32_t line, board, cell, word;
};

struct write {
    uint32_t cell, writer, word, number;
};

static struct step steps[MOST_STEPS];
static struct write writes[MOST_STEPS];
static struct view views[CELLS][BOARDS], released[CELLS];
static int owner[CELLS];

static const uint8_t *number(const uint8_t *at, const uint8_t *end, uint32_t *n)
{
    if (at == end || *at < '0' || *at > '9')
        return NULL;
    if (*at == '0') {
        *n = 0;
        return at + 1;
    }
    uint64_t sum = 0;
    for (; at != end && *at >= '0' && *at <= '9'; at++) {
        sum = sum * 10 + (*at - '0');
        if (sum > UINT32_MAX)
            return NULL;
    }
    *n = (uint32_t)sum;
    return at;
}

static int numbers(const uint8_t *at, const uint8_t *end, uint32_t **to, int count)
{
    for (int i = 0; i < count; i++) {
        if (i > 0 && (at == end || *at++ != '.'))
            return 0;
        at = number(at, end, to[i]);
        if (at == NULL)
            return 0;
    }
    return at == end;
}

static int step(const uint8_t *at, const uint8_t *end, struct step *s)
{
    if (end - at < 2 || at[1] != '=')
        return 0;
    uint32_t *to[] = { &s->board, &s->cell, &s->word };
    s->letter = (char)at[0];
    switch (s->letter) {
    case 'r':
    case 'w':
        return numbers(at + 2, end, to, 3);
    case 'a':
    case 'l':
    case 'b':
    case 'e':
        return numbers(at + 2, end, to, 2);
    case 'd':
        return end - at == 2;
    default:
        return 0;
    }
}

static int field(const uint8_t *at, const uint8_t *end, const char *name, uint32_t *n)
{
    size_t size = strlen(name);
    if ((size_t)(end - at) < size || memcmp(at, name, size) != 0)
        return 0;
    at = number(at + size, end, n);
    return at == end;
}

static const char *const names[] = { "boards=", "cells=", "entries=", "start=" };
static const uint32_t most[] = { 8, 64, 8, UINT32_MAX };
static const uint32_t least[] = { 1, 1, 1, 0 };

/* The steps into `steps`, or the first fault. */
static uint64_t read(const uint8_t *text, size_t length, uint32_t *header, uint32_t *count)
{
    if (length > MOST_BYTES)
        return 6000000;
    uint32_t line = 0;
    int fields = 0;
    *count = 0;
    const uint8_t *last = text + length;
    while (text != last) {
        line++;
        const uint8_t *end = memchr(text, '\n', (size_t)(last - text));
        if (end == NULL)
            return 4000000 + line;
        if (text != end && *text == '#') {
        } else if (fields == 0) {
            if (end - text != 9 || memcmp(text, "trace=log", 9) != 0)
                return 4000000 + line;
            fields++;
        } else if (fields < 5) {
            uint32_t *n = &header[fields - 1];
            if (!field(text, end, names[fields - 1], n))
                return 4000000 + line;
            if (*n < least[fields - 1] || *n > most[fields - 1])
                return 3000000 + line;
            fields++;
        } else {
            struct step s;
            if (!step(text, end, &s))
                return 4000000 + line;
            if (*count == MOST_STEPS)
                return 6000000 + line;
            s.line = line;
            steps[(*count)++] = s;
        }
        text = end + 1;
    }
    return fields == 5 ? 0 : 4000000 + line + 1;
}

static void join(struct view *v, const struct view *u)
{
    for (int i = 0; i < WRITERS; i++) {
        if (u->known[i] > v->known[i])
            v->known[i] = u->known[i];
        if (u->over[i] > v->over[i])
            v->over[i] = u->over[i];
    }
}

static int legal(const struct step *s, uint32_t start, uint32_t count)
{
    const struct view *v = &views[s->cell][s->board];
    for (uint32_t i = count; i-- > 0;)
        if (writes[i].cell == s->cell && writes[i].word == s->word && v->over[writes[i].writer] <= writes[i].number)
            return 1;
    return v->over[NOBODY] == 0 && start == s->word;
}

uint64_t plain_verdict(const uint8_t *log, size_t length)
{
    uint32_t header[4], count, written = 0, events = 0;
    uint64_t fault = read(log, length, header, &count);
    if (fault != 0)
        return fault;
    memset(views, 0, sizeof views);
    memset(released, 0, sizeof released);
    for (int c = 0; c < CELLS; c++) {
        released[c].known[NOBODY] = 1;
        owner[c] = -1;
    }
    for (uint32_t i = 0; i < count; i++) {
        const struct step *s = &steps[i];
        if (s->letter == 'b' || s->letter == 'e' || s->letter == 'd')
            continue;
        if (s->board >= header[0])
            return 1000000 + s->line;
        if (s->cell >= header[1])
            return 2000000 + s->line;
        struct view *v = &views[s->cell][s->board];
        int *held = &owner[s->cell];
        switch (s->letter) {
        case 'r':
            if (!legal(s, header[3], written))
                return s->line;
            break;
        case 'w':
            events++;
            memcpy(v->over, v->known, sizeof v->over);
            v->known[s->board] = events + 1;
            writes[written++] = (struct write){ s->cell, s->board, s->word, events };
            break;
        case 'a':
            if (*held >= 0)
                return ((uint32_t)*held == s->board ? 12000000 : 11000000) + s->line;
            events++;
            join(v, &released[s->cell]);
            *held = (int)s->board;
            break;
        case 'l':
            if (*held < 0 || (uint32_t)*held != s->board)
                return 13000000 + s->line;
            events++;
            released[s->cell] = *v;
            *held = -1;
            break;
        }
    }
    return 0;
}
