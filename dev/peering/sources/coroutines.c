// The peers' tasks with coroutines of ucontext on one thread: `coroutines TASK COUNT [STACK_KIB]`, which prints `name
// value` lines.
#define _GNU_SOURCE
#include <stdio.h>
#include <stdlib.h>
#include <string.h>
#include <sys/mman.h>
#include <time.h>
#include <ucontext.h>
#include <unistd.h>

enum { CHANNELS = 64, WORKERS = 16 };

struct coroutine { ucontext_t context; struct coroutine *next; long argument; void (*run)(long); void *stack; };
struct queue { struct coroutine *first, **last; };
struct channel { struct queue waiting; long messages; };

static struct channel channels[CHANNELS];
static struct queue ready;
static struct coroutine *running;
static ucontext_t scheduler;
static size_t stack_bytes;
static long ended;

static double now(void)
{
    struct timespec t;
    clock_gettime(CLOCK_MONOTONIC, &t);
    return t.tv_sec + t.tv_nsec / 1e9;
}

static void report_memory(const char *name)
{
    long pages = 0;
    FILE *f = fopen("/proc/self/statm", "r");
    if (f && fscanf(f, "%*s %ld", &pages) == 1)
        printf("%s %ld\n", name, pages * sysconf(_SC_PAGESIZE));
    if (f)
        fclose(f);
}

static void push(struct queue *q, struct coroutine *c)
{
    c->next = NULL;
    *q->last = c;
    q->last = &c->next;
}

static struct coroutine *pop(struct queue *q)
{
    struct coroutine *c = q->first;
    if (c && !(q->first = c->next))
        q->last = &q->first;
    return c;
}

static void receive(struct channel *c)
{
    while (c->messages == 0) {
        struct coroutine *me = running;
        push(&c->waiting, me);
        swapcontext(&me->context, &scheduler);
    }
    --c->messages;
}

static void send_to(struct channel *c)
{
    ++c->messages;
    struct coroutine *woken = pop(&c->waiting);
    if (woken)
        push(&ready, woken);
}

static void begin(void)
{
    running->run(running->argument);
    ++ended;
    setcontext(&scheduler);
}

static struct coroutine *start(void (*run)(long), long argument)
{
    struct coroutine *c = malloc(sizeof *c);
    if (!c)
        return NULL;
    c->stack = mmap(NULL, stack_bytes, PROT_READ | PROT_WRITE, MAP_PRIVATE | MAP_ANONYMOUS | MAP_NORESERVE, -1, 0);
    if (c->stack == MAP_FAILED)
        return NULL;
    getcontext(&c->context);
    c->context.uc_stack.ss_sp = c->stack;
    c->context.uc_stack.ss_size = stack_bytes;
    c->context.uc_link = NULL;
    makecontext(&c->context, begin, 0);
    c->run = run;
    c->argument = argument;
    push(&ready, c);
    return c;
}

static void schedule(void)
{
    while ((running = pop(&ready)))
        swapcontext(&scheduler, &running->context);
}

static void waiter(long me)
{
    receive(&channels[me % CHANNELS]);
}

static int waiters(long number, void (*within)(void))
{
    report_memory("before");
    double began = now();
    for (long i = 0; i < number; ++i)
        if (!start(waiter, i)) {
            printf("failed %ld\n", i);
            fflush(stdout);
            _exit(3);
        }
    schedule();
    printf("start %.6f\n", now() - began);
    report_memory("after");
    if (within)
        within();
    began = now();
    ended = 0;
    for (long i = 0; i < number; ++i)
        send_to(&channels[i % CHANNELS]);
    schedule();
    printf("wake %.6f\n", now() - began);
    return ended == number ? 0 : 1;
}

static long hands;

static void hander(long me)
{
    for (long i = 0; i < hands; ++i) {
        receive(&channels[me]);
        send_to(&channels[1 - me]);
    }
}

static int handing(long number)
{
    hands = number;
    double began = now();
    start(hander, 0);
    start(hander, 1);
    send_to(&channels[0]);
    schedule();
    printf("seconds %.6f\n", now() - began);
    return 0;
}

static long left, sum;

static void worker(long me)
{
    (void)me;
    for (;;) {
        receive(&channels[0]);
        if (left == 0)
            return;
        long value = --left % 100;
        sum += value * value;
    }
}

static int pool(long number)
{
    double began = now();
    left = number;
    for (long i = 0; i < WORKERS; ++i)
        start(worker, i);
    schedule();
    for (long sent = 0; sent < number;) {
        for (int i = 0; i < WORKERS && sent < number; ++i, ++sent)
            send_to(&channels[0]);
        schedule();
    }
    printf("seconds %.6f\nsum %ld\n", now() - began, sum);
    return 0;
}

static __attribute__((noinline)) long depth(volatile long n)
{
    return n < 1 ? 0 : depth(n - 1) + 1;
}

static void deep(long n)
{
    long reached = depth(n);
    printf("depth %ld\n", reached);
    report_memory("deep");
}

static void recurse(void)
{
    fflush(stdout);
    start(deep, 10000);
    schedule();
}

int main(int count, char **words)
{
    long number = count > 2 ? atol(words[2]) : 0;
    stack_bytes = (count > 3 ? atol(words[3]) : 16) * 1024;
    ready.last = &ready.first;
    for (int i = 0; i < CHANNELS; ++i)
        channels[i].waiting.last = &channels[i].waiting.first;
    if (count > 1 && !strcmp(words[1], "waiters"))
        return waiters(number, NULL);
    if (count > 1 && !strcmp(words[1], "handing"))
        return handing(number);
    if (count > 1 && !strcmp(words[1], "pool"))
        return pool(number);
    if (count > 1 && !strcmp(words[1], "deep"))
        return waiters(number, recurse);
    return 2;
}
