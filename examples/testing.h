/* What the tests share: counting what is expected, and comparing states field by field. */
#ifndef TESTING_H
#define TESTING_H

#include <stdio.h>
#include <string.h>

#include "kuthbareen.h"

static unsigned long tests, failures;

static void expect(const char *what, unsigned long got, unsigned long wanted)
{
    tests++;
    if (got != wanted && ++failures <= 20)
        printf("%s: got %lu, expected %lu\n", what, got, wanted);
}

static int same_state(const kuthbareen_state *a, const kuthbareen_state *b)
{
    const kuthbareen_control *c = &a->control, *d = &b->control;
    return memcmp(a->registers, b->registers, sizeof a->registers) == 0 &&
           memcmp(a->cram, b->cram, sizeof a->cram) == 0 && memcmp(a->vsram, b->vsram, sizeof a->vsram) == 0 &&
           c->port.address == d->port.address && c->port.code == d->port.code && c->port.pending == d->port.pending &&
           c->dma.kind == d->dma.kind && c->dma.remaining == d->dma.remaining && c->dma.source == d->dma.source &&
           c->dma.fill == d->dma.fill && c->flags.overflow == d->flags.overflow &&
           c->flags.collision == d->flags.collision && c->flags.used_up == d->flags.used_up &&
           c->timing.line == d->timing.line && c->timing.counter == d->timing.counter &&
           c->timing.vertical == d->timing.vertical && c->timing.horizontal == d->timing.horizontal &&
           a->pal == b->pal;
}

/* Tells how it went and gives the program's exit status. */
static int tested(void)
{
    printf("%lu tests, %lu failures\n", tests, failures);
    return failures != 0;
}

#endif
