/* harness.c: runs a file of prepared cases (TSV2) through the C interface, compares every number, place,
   figure, output and untouched byte with what the case says, and times each call.
   Usage: harness CASES.bin [REPEAT]: each call is repeated, and its best time counts.
   It links baseline.c or the proved library; -DSTAGE="'x'": x is the last request of document 02 that has landed,
   'd' at least (by default 'g'). */
#include <stdint.h>
#include <stdio.h>
#include <stdlib.h>
#include <string.h>
#include <time.h>

#ifndef STAGE
#define STAGE 'g'
#endif

typedef uint8_t u8;
typedef uint32_t u32;

void ffy_read(const u8 *, size_t, u32 *, size_t, u32 *);
void ffy_write(const u32 *, size_t, u8 *, size_t, u32 *);
void ffy_judge(const u8 *, size_t, const u32 *, size_t, u32 *);
void ffy_lists(const u8 *, size_t, const u32 *, size_t, u32 *, size_t, u32 *);
void ffy_plan(const u8 *, size_t, u32 *, size_t, u32 *);
void ffy_responses(const u32 *, size_t, u32 *, size_t, u32 *);
void ffy_hold(const u8 *, size_t, const u32 *, size_t, const u32 *, size_t, u32, u32 *);
void ffy_up(const u8 *, size_t, u8 *, size_t, u32 *);
void ffy_back(const u8 *, size_t, u8 *, size_t, u32 *);
void ffy_replan(const u8 *, size_t, const u32 *, size_t, u32 *, size_t, u32 *);

enum { READ = 1, WRITE, JUDGE, LISTS = 5, PLAN, RESPONSES, HOLD, UP, BACK, REPLAN, CALLS };
static const char *names[CALLS] = {"", "read", "write", "judge", "", "lists", "plan", "responses", "hold", "up", "back", "replan"};

typedef struct {
    u32 call, la, lb, lc, ld, span, room, room2, number, place, second, figures[5], lo, lo2;
    const u8 *a, *o, *o2;
    u32 *aw, *b, *c, *d; /* aw: A as words */
} Case;

static u8 *data;
static size_t at, size;

static const u8 *get(size_t n) {
    if (size - at < n) {
        puts("the file ends within a case");
        exit(2);
    }
    at += n;
    return data + at - n;
}

static u32 be4(const u8 *p) {
    return (u32)p[0] << 24 | (u32)p[1] << 16 | (u32)p[2] << 8 | p[3];
}

static u32 get4(void) {
    return be4(get(4));
}

static u32 *as_words(const u8 *p, u32 n) {
    u32 *w = malloc(4 * (size_t)n + 4);
    for (u32 k = 0; k < n; k++)
        w[k] = be4(p + 4 * (size_t)k);
    return w;
}

static Case next(void) {
    Case k;
    k.call = *get(1);
    k.la = get4();
    k.a = get(k.la);
    k.aw = as_words(k.a, k.la / 4);
    k.lb = get4();
    k.b = as_words(get(4 * (size_t)k.lb), k.lb);
    k.lc = get4();
    k.c = as_words(get(4 * (size_t)k.lc), k.lc);
    k.ld = get4();
    k.d = as_words(get(4 * (size_t)k.ld), k.ld);
    k.span = get4();
    k.room = get4();
    k.room2 = get4();
    k.number = *get(1);
    k.place = get4();
    k.second = get4();
    for (int i = 0; i < 5; i++)
        k.figures[i] = get4();
    k.lo = get4();
    k.o = get(k.lo);
    k.lo2 = get4();
    k.o2 = get(k.lo2);
    return k;
}

static void drop(Case *k) {
    free(k->aw);
    free(k->b);
    free(k->c);
    free(k->d);
}

/* false if the stage doesn't have the call */
static int run(const Case *k, u8 *buf, u32 *ans) {
    u32 *words = (u32 *)buf;
    switch (k->call) {
    case READ:
        ffy_read(k->a, k->la, words, k->room, ans);
        return 1;
    case WRITE:
        ffy_write(k->aw, k->la / 4, buf, k->room, ans);
        return 1;
    case JUDGE:
        ffy_judge(k->a, k->la, k->b, k->lb, ans);
        return 1;
    case LISTS:
        ffy_lists(k->a, k->la, k->b, k->lb, words, k->room, ans);
        return 1;
    case PLAN:
        ffy_plan(k->a, k->la, words, k->room, ans);
        return 1;
    case RESPONSES:
        ffy_responses(k->aw, k->la / 4, words, k->room, ans);
        return 1;
    case HOLD:
        ffy_hold(k->a, k->la, k->b, k->lb, k->c, k->lc, k->span, ans);
        return 1;
#if STAGE >= 'e'
    case UP:
        ffy_up(k->a, k->la, buf, k->room, ans);
        return 1;
    case BACK:
        ffy_back(k->a, k->la, buf, k->room, ans);
        return 1;
#endif
#if STAGE >= 'g'
    case REPLAN:
        ffy_replan(k->a, k->la, k->b, k->lb, words, k->room, ans);
        return 1;
#endif
    }
    return 0;
}

/* A plan takes long enough for other processes to come between: it is timed by its own processor time. */
static double now(int own) {
    struct timespec t;
    clock_gettime(own ? CLOCK_PROCESS_CPUTIME_ID : CLOCK_MONOTONIC, &t);
    return t.tv_sec + 1e-9 * t.tv_nsec;
}

/* what is wrong with the answer, 0 if nothing */
static const char *wrong(const Case *k, const u8 *buf, size_t bytes, const u32 *ans) {
    int in_bytes = k->call == WRITE || k->call == UP || k->call == BACK;
    int counted = k->call != RESPONSES && !k->number; /* with an output, figure 0 says how much was written */
    if (ans[0] != k->number || ans[1] != k->place || ans[2] != k->second)
        return "number or place";
    for (int i = 0; i < 5; i++)
        if (ans[3 + i] != (i == 0 && counted && k->lo ? in_bytes ? k->lo : k->lo / 4 : k->figures[i]))
            return "figures";
    for (u32 i = 0; i < k->lo; i++)
        if (k->o[i] != (in_bytes ? buf[i] : (u8)(((u32 *)buf)[i / 4] >> (24 - 8 * (i % 4)))))
            return "output";
    for (size_t i = k->lo; i < bytes; i++)
        if (buf[i] != 0xA5)
            return "bytes beyond the output";
    return 0;
}

int main(int argc, char **argv) {
    FILE *f = argc > 1 ? fopen(argv[1], "rb") : 0;
    if (!f) {
        puts("harness CASES.bin [REPEAT]: no such file");
        return 2;
    }
    fseek(f, 0, SEEK_END);
    size = ftell(f);
    rewind(f);
    data = malloc(size + 1);
    if (fread(data, 1, size, f) != size || memcmp(get(4), "TSV2", 4)) {
        puts("not a TSV2 file");
        return 2;
    }
    int repeat = argc > 2 && atoi(argv[2]) > 1 ? atoi(argv[2]) : 1;
    u32 n = get4(), agree = 0, shown = 0, count[CALLS] = {0};
    double spent[CALLS] = {0}, longest[CALLS] = {0};
    for (u32 i = 0; i < n; i++) {
        Case k = next();
        u32 ans[8];
        size_t bytes = (k.call == WRITE || k.call == UP || k.call == BACK ? 1 : 4) * (size_t)k.room + 64;
        u8 *buf = malloc(bytes);
        double best = 1e9;
        int own = k.call == PLAN || k.call == REPLAN, there = 1;
        for (int r = 0; r < repeat && there; r++) {
            memset(buf, 0xA5, bytes);
            memset(ans, 0xA5, sizeof ans);
            double t = now(own);
            there = run(&k, buf, ans);
            t = now(own) - t;
            if (t < best)
                best = t;
        }
        const char *what = there ? wrong(&k, buf, bytes, ans) : "no such call at this stage";
        if (there) {
            spent[k.call] += best;
            count[k.call]++;
            if (best > longest[k.call])
                longest[k.call] = best;
        }
        if (!what)
            agree++;
        else if (shown++ < 20) {
            printf("case %u, call %u: %s; want %u %u %u |", i, k.call, what, k.number, k.place, k.second);
            for (int j = 0; j < 5; j++)
                printf(" %u", k.figures[j]);
            printf(", got %u %u %u |", ans[0], ans[1], ans[2]);
            for (int j = 3; j < 8; j++)
                printf(" %u", ans[j]);
            puts("");
        }
        free(buf);
        drop(&k);
    }
    for (int c = 1; c < CALLS; c++)
        if (count[c])
            printf("%-10s %6u calls %10.3f ms, longest %8.3f ms\n", names[c], count[c], 1e3 * spent[c], 1e3 * longest[c]);
    if (at != size)
        puts("bytes behind the last case");
    printf("%u cases, %u agree\n", n, agree);
    return agree != n || at != size;
}
