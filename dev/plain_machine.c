// A plain switch interpreter of RV32IM for one thread of an image that `capriccio build` wrote, as a measure for its speed: it
// checks nothing but that an address lies in some area. It runs the last entry of the image, which is main where main is defined
// last, to the thread's end, and prints each put, then the instructions that retired and the seconds of processor time.
//
// usage: plain_machine IMAGE CHUNK CHUNKS
#include <stdint.h>
#include <stdio.h>
#include <stdlib.h>
#include <time.h>

static uint32_t *code, *globals, *tables, *entries, *pool;
static uint32_t code_words, global_words, table_words, entry_words, chunk, chunks, x[32];

static void fail(const char *why, uint32_t at) {
    fprintf(stderr, "plain_machine: %s %x\n", why, at);
    exit(1);
}

static void load(const char *name) {
    FILE *file = fopen(name, "rb");
    uint32_t head[5];
    if (!file || fread(head, 4, 5, file) != 5) fail("no image", 0);
    code_words = head[1], global_words = head[2], table_words = head[3], entry_words = head[4];
    uint32_t total = code_words + global_words + table_words + entry_words;
    code = malloc(4 * (total + 1));
    if (fread(code, 4, total, file) != total) fail("short image", total);
    globals = code + code_words, tables = globals + global_words, entries = tables + table_words;
    fclose(file);
}

static inline uint32_t *place(uint32_t a) {
    uint32_t offset = a - 0x80000000u;
    if (offset < chunks * chunk) return &pool[offset / 4];
    offset = a - 0x10000000u;
    if (offset < 4 * global_words) return &globals[offset / 4];
    offset = a - 0x20000000u;
    if (offset < 4 * table_words) return &tables[offset / 4];
    fail("no memory at", a);
    return 0;
}

int main(int count, char **words) {
    if (count != 4) fail("usage: plain_machine IMAGE CHUNK CHUNKS", count);
    load(words[1]);
    chunk = atoi(words[2]), chunks = atoi(words[3]);
    pool = calloc(chunks, chunk);
    for (uint32_t i = 0; i < chunks; i++) pool[i * (chunk / 4)] = i + 1;
    pool[0] = pool[1] = 0;
    uint32_t free_first = 1, pc = entries[entry_words - 1];
    uint64_t retired = 0;
    x[1] = 0x1000, x[2] = 0x80000000u + chunk, x[4] = 0x80000000u + 16;
    struct timespec begin, end;
    clock_gettime(CLOCK_PROCESS_CPUTIME_ID, &begin);
    for (;;) {
        uint32_t w = code[(pc - 0x1000) / 4], rd = w >> 7 & 31, a = x[w >> 15 & 31], b = x[w >> 20 & 31], f = w >> 12 & 7, value = 0;
        int32_t i = (int32_t)w >> 20;
        uint32_t next = pc + 4;
        switch (w & 127) {
        case 0x37: value = w & 0xfffff000u; break;
        case 0x17: value = pc + (w & 0xfffff000u); break;
        case 0x6f: value = next; next = pc + ((uint32_t)((int32_t)w >> 31) << 20 | (w & 0xff000) | (w >> 20 & 1) << 11 | (w >> 21 & 0x3ff) << 1); break;
        case 0x67: value = next; next = (a + i) & ~1u; break;
        case 0x63: {
            int taken = f == 0 ? a == b : f == 1 ? a != b : f == 4 ? (int32_t)a < (int32_t)b : f == 5 ? (int32_t)a >= (int32_t)b : f == 6 ? a < b : a >= b;
            if (taken) next = pc + ((uint32_t)((int32_t)w >> 31) << 12 | (w >> 7 & 1) << 11 | (w >> 25 & 63) << 5 | (w >> 8 & 15) << 1);
            rd = 0;
            break;
        }
        case 0x03: value = *place(a + i); break;
        case 0x23: *place(a + ((i & ~31) | (w >> 7 & 31))) = b; rd = 0; break;
        case 0x13:
            switch (f) {
            case 0: value = a + i; break;
            case 1: value = a << (i & 31); break;
            case 2: value = (int32_t)a < i; break;
            case 3: value = a < (uint32_t)i; break;
            case 4: value = a ^ i; break;
            case 5: value = w >> 30 & 1 ? (uint32_t)((int32_t)a >> (i & 31)) : a >> (i & 31); break;
            case 6: value = a | i; break;
            default: value = a & i; break;
            }
            break;
        case 0x33:
            switch ((w >> 25) << 3 | f) {
            case 0: value = a + b; break;
            case 0x100: value = a - b; break;
            case 1: value = a << (b & 31); break;
            case 2: value = (int32_t)a < (int32_t)b; break;
            case 3: value = a < b; break;
            case 4: value = a ^ b; break;
            case 5: value = a >> (b & 31); break;
            case 0x105: value = (uint32_t)((int32_t)a >> (b & 31)); break;
            case 6: value = a | b; break;
            case 7: value = a & b; break;
            case 8: value = a * b; break;
            case 12: value = b == 0 ? ~0u : a == 0x80000000u && b == ~0u ? a : (uint32_t)((int32_t)a / (int32_t)b); break;
            case 14: value = b == 0 ? a : a == 0x80000000u && b == ~0u ? 0 : (uint32_t)((int32_t)a % (int32_t)b); break;
            default: fail("no instruction", w);
            }
            break;
        case 0x73:
            rd = 0;
            if (x[17] == 1) {
                uint32_t taken = free_first;
                if (taken == chunks) fail("no chunk", pc);
                uint32_t *header = &pool[taken * (chunk / 4)];
                free_first = header[0], header[0] = x[4], header[1] = x[2];
                x[4] = 0x80000000u + taken * chunk + 16, x[2] = 0x80000000u + (taken + 1) * chunk;
            } else if (x[17] == 2) {
                uint32_t given = (x[4] - 16 - 0x80000000u) / chunk, *header = &pool[given * (chunk / 4)];
                x[4] = header[0], x[2] = header[1], header[0] = free_first, free_first = given;
            } else if (x[17] == 3) {
                printf("put %d\n", (int32_t)x[10]);
            } else if (x[17] == 30) {
                clock_gettime(CLOCK_PROCESS_CPUTIME_ID, &end);
                printf("retired %llu seconds %.6f\n", (unsigned long long)retired + 1, end.tv_sec - begin.tv_sec + (end.tv_nsec - begin.tv_nsec) / 1e9);
                return 0;
            } else fail("no such call", x[17]);
            break;
        default: fail("no instruction", w);
        }
        if (rd) x[rd] = value;
        pc = next;
        retired++;
    }
}
