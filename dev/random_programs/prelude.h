/* What the C text of a random program stands on: the meaning of CapC where C has none, and its threads, which run one after another, as they never block. */
#include <limits.h>
#include <stdio.h>
#include <stdlib.h>

static int running, started;
static struct { void (*function)(int); int value; } thread[1000];

static void put(int value) { printf("out %d %d\n", running, value); }
static void spawn(void (*function)(int), int value) { thread[++started].function = function; thread[started].value = value; }

static int quotient(int a, int b) { return b == 0 ? -1 : a == INT_MIN && b == -1 ? a : a / b; }
static int rest(int a, int b) { return b == 0 ? a : a == INT_MIN && b == -1 ? 0 : a % b; }
static int left(int a, int b) { return (int)((unsigned)a << (b & 31)); }
static int right(int a, int b) { return (int)(((unsigned)a >> (b & 31)) | (a < 0 && (b & 31) ? ~0u << (32 - (b & 31)) : 0u)); }

/* The index, or the end of the run where it isn't below the size, read unsigned. */
static int inside(int index, unsigned size, const char *kind) {
  if ((unsigned)index < size) return index;
  printf("stop trap %d %s\n", running, kind);
  exit(0);
}

int capc_main(void);

int main(void) {
  capc_main();
  for (running = 1; running <= started; running++) thread[running].function(thread[running].value);
  printf("stop done\n");
}

