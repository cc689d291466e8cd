/*
 * What happens at the box: the switch SELECT of the board stands for the sensor of leaves, and the switch UP for the
 * key that begins a new volume.
 */
#ifndef SWITCHES_H
#define SWITCHES_H

enum event { LEAF, NEW_VOLUME };

/* How many events can wait for the main loop. A power of 2, up to 128. */
#ifndef SWITCHES_WAITING
#define SWITCHES_WAITING 64
#endif

/* The interrupts of the ports that the switches are at; startup.c has both in its table. */
enum { SWITCHES_PORT_E = 4, SWITCHES_PORT_F = 30 };

void switches_start(void);

/* The next event, in the order in which they happened. Where there is none it sleeps until there is. */
enum event switches_take(void);

/* Whether an event was lost since the start: so many others waited already. */
int switches_lost(void);

void switches_interrupt(void);

#endif
