/* A command of two halves, as the example programs give them to the control port. */
#ifndef COMMAND_H
#define COMMAND_H

#include "kuthbareen.h"

/* The code's bits CD5-CD0 and the address. */
static void command(kuthbareen_state *chip, unsigned code, unsigned address)
{
    kuthbareen_control_write(chip, (uint16_t)((code & 3) << 14 | (address & 0x3FFF)));
    kuthbareen_control_write(chip, (uint16_t)((code >> 2) << 4 | address >> 14));
}

#endif
