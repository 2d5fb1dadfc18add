/* The calls of CapC that no source declares, for compilers and editors that know C.
 *
 *     gcc -fsyntax-only -ffreestanding -Wall -include include/capriccio.h server.c
 *
 * A source never includes this file: CapC has no preprocessor, and Capriccio knows the calls. docs/WRITING.md shows how an
 * editor finds it. It declares and defines nothing else, so that a source may have any other name.
 */
#ifndef CAPRICCIO_H
#define CAPRICCIO_H

/* Takes the oldest request that no thread has taken, and gives its value. Blocks until there is one. */
int accept(void);

/* Takes the oldest message on `channel`, from 0 to 63, and gives its value. Blocks until there is one. */
int wait(int channel);

/* Gives 1 if `channel`, from 0 to 63, holds a message, which stays there for `wait`, and 0 if none came in `ticks` ticks.
 * Blocks until there is a message, for at most `ticks` ticks. */
int waitfor(int channel, int ticks);

/* Blocks for `ticks` ticks; not at all if they are negative. */
void sleep(int ticks);

/* Lets another thread have its turn. */
void yield(void);

/* Takes `units` units of `resource`, from 1 to 7. Blocks until so many are free. The option `--caps` says how many there are. */
void take(int resource, int units);

/* Gives `units` units of `resource` back. Doesn't block. */
void give(int resource, int units);

/* Writes `value` to the log, as a line `out`. Doesn't block. */
void put(int value);

/* The number of this thread. `main` runs in thread 0. */
int self(void);

/* Starts a thread that calls `function(value)`, and gives its number. Doesn't block. `function` is the name of a function with
 * one parameter, `int` or `void`. */
int capriccio_spawn_int(int (*function)(int), int value);
int capriccio_spawn_void(void (*function)(int), int value);
#define spawn(function, value) \
  _Generic(&(function), int (*)(int): capriccio_spawn_int, void (*)(int): capriccio_spawn_void)(function, value)

#endif
