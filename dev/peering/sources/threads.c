// The peers' tasks with POSIX threads: `threads TASK COUNT [STACK_KIB]`, which prints `name value` lines.
#define _GNU_SOURCE
#include <pthread.h>
#include <stdio.h>
#include <stdlib.h>
#include <string.h>
#include <time.h>
#include <unistd.h>

enum { CHANNELS = 64, WORKERS = 16, QUEUE = 1024 };

struct channel { pthread_mutex_t lock; pthread_cond_t some; long messages; };
static struct channel channels[CHANNELS];
static pthread_mutex_t counting = PTHREAD_MUTEX_INITIALIZER;
static pthread_cond_t counted = PTHREAD_COND_INITIALIZER;
static long waiting, ended;
static size_t stack_bytes;

static double now(void)
{
    struct timespec t;
    clock_gettime(CLOCK_MONOTONIC, &t);
    return t.tv_sec + t.tv_nsec / 1e9;
}

static void report_memory(const char *name)
{
    long pages = 0;
    FILE *f = fopen("/proc/self/statm", "r");
    if (f && fscanf(f, "%*s %ld", &pages) == 1)
        printf("%s %ld\n", name, pages * sysconf(_SC_PAGESIZE));
    if (f)
        fclose(f);
}

static void count(long *what)
{
    pthread_mutex_lock(&counting);
    ++*what;
    pthread_cond_signal(&counted);
    pthread_mutex_unlock(&counting);
}

static void until(long *what, long number)
{
    pthread_mutex_lock(&counting);
    while (*what < number)
        pthread_cond_wait(&counted, &counting);
    pthread_mutex_unlock(&counting);
}

static void receive(struct channel *c)
{
    pthread_mutex_lock(&c->lock);
    while (c->messages == 0)
        pthread_cond_wait(&c->some, &c->lock);
    --c->messages;
    pthread_mutex_unlock(&c->lock);
}

static void send_to(struct channel *c)
{
    pthread_mutex_lock(&c->lock);
    ++c->messages;
    pthread_cond_signal(&c->some);
    pthread_mutex_unlock(&c->lock);
}

static int start(pthread_t *thread, void *(*run)(void *), void *argument)
{
    pthread_attr_t attributes;
    pthread_attr_init(&attributes);
    pthread_attr_setstacksize(&attributes, stack_bytes);
    int failed = pthread_create(thread, &attributes, run, argument);
    pthread_attr_destroy(&attributes);
    return failed;
}

static void *waiter(void *argument)
{
    count(&waiting);
    receive(&channels[(long)argument % CHANNELS]);
    count(&ended);
    return NULL;
}

// Starts threads that wait, and wakes each; `within` runs while all wait.
static int waiters(long number, void (*within)(void))
{
    pthread_t *all = calloc(number, sizeof *all);
    report_memory("before");
    double began = now();
    for (long i = 0; i < number; ++i)
        if (start(&all[i], waiter, (void *)i)) {
            printf("failed %ld\n", i);
            fflush(stdout);
            _exit(3);
        }
    until(&waiting, number);
    printf("start %.6f\n", now() - began);
    report_memory("after");
    if (within)
        within();
    began = now();
    for (long i = 0; i < number; ++i)
        send_to(&channels[i % CHANNELS]);
    until(&ended, number);
    printf("wake %.6f\n", now() - began);
    for (long i = 0; i < number; ++i)
        pthread_join(all[i], NULL);
    return 0;
}

static long hands;

static void *hander(void *argument)
{
    long me = (long)argument;
    for (long i = 0; i < hands; ++i) {
        receive(&channels[me]);
        send_to(&channels[1 - me]);
    }
    return NULL;
}

static int handing(long number)
{
    pthread_t both[2];
    hands = number;
    double began = now();
    for (long i = 0; i < 2; ++i)
        start(&both[i], hander, (void *)i);
    send_to(&channels[0]);
    for (int i = 0; i < 2; ++i)
        pthread_join(both[i], NULL);
    printf("seconds %.6f\n", now() - began);
    return 0;
}

static struct { pthread_mutex_t lock; pthread_cond_t some, room; long values[QUEUE], first, length, closed; } requests;
static long answers[WORKERS];

static void *worker(void *argument)
{
    long me = (long)argument;
    for (;;) {
        pthread_mutex_lock(&requests.lock);
        while (requests.length == 0 && !requests.closed)
            pthread_cond_wait(&requests.some, &requests.lock);
        if (requests.length == 0) {
            pthread_mutex_unlock(&requests.lock);
            return NULL;
        }
        long value = requests.values[requests.first];
        requests.first = (requests.first + 1) % QUEUE;
        --requests.length;
        pthread_cond_signal(&requests.room);
        pthread_mutex_unlock(&requests.lock);
        answers[me] += value * value;
    }
}

static int pool(long number)
{
    pthread_t all[WORKERS];
    long sum = 0;
    double began = now();
    for (long i = 0; i < WORKERS; ++i)
        start(&all[i], worker, (void *)i);
    for (long i = 0; i < number; ++i) {
        pthread_mutex_lock(&requests.lock);
        while (requests.length == QUEUE)
            pthread_cond_wait(&requests.room, &requests.lock);
        requests.values[(requests.first + requests.length++) % QUEUE] = i % 100;
        pthread_cond_signal(&requests.some);
        pthread_mutex_unlock(&requests.lock);
    }
    pthread_mutex_lock(&requests.lock);
    requests.closed = 1;
    pthread_cond_broadcast(&requests.some);
    pthread_mutex_unlock(&requests.lock);
    for (int i = 0; i < WORKERS; ++i) {
        pthread_join(all[i], NULL);
        sum += answers[i];
    }
    printf("seconds %.6f\nsum %ld\n", now() - began, sum);
    return 0;
}

static __attribute__((noinline)) long depth(volatile long n)
{
    return n < 1 ? 0 : depth(n - 1) + 1;
}

static void *deep(void *argument)
{
    printf("depth %ld\n", depth((long)argument));
    report_memory("deep");
    return NULL;
}

static void recurse(void)
{
    pthread_t thread;
    fflush(stdout);
    start(&thread, deep, (void *)10000L);
    pthread_join(thread, NULL);
}

int main(int count, char **words)
{
    long number = count > 2 ? atol(words[2]) : 0;
    stack_bytes = (count > 3 ? atol(words[3]) : 16) * 1024;
    for (int i = 0; i < CHANNELS; ++i) {
        pthread_mutex_init(&channels[i].lock, NULL);
        pthread_cond_init(&channels[i].some, NULL);
    }
    pthread_mutex_init(&requests.lock, NULL);
    pthread_cond_init(&requests.some, NULL);
    pthread_cond_init(&requests.room, NULL);
    if (count > 1 && !strcmp(words[1], "waiters"))
        return waiters(number, NULL);
    if (count > 1 && !strcmp(words[1], "handing"))
        return handing(number);
    if (count > 1 && !strcmp(words[1], "pool"))
        return pool(number);
    if (count > 1 && !strcmp(words[1], "deep"))
        return waiters(number, recurse);
    return 2;
}
