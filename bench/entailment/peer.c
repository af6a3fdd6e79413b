/* The same questions of terms that are pairs of numbers: a kind (0: the first time, 1: a time, 2: other) and a number. */
#include <stdio.h>
#include <string.h>
#include <time.h>

enum { ROUNDS = 20, COUNT = 50, NUMBER = 512 };

struct term { int kind; long number; };
struct constraint { struct term low, high; };

static int order[NUMBER];

static int linked(const struct term *u, const struct term *v)
{
    if (u->kind == 0)
        return 1;
    if (u->kind == 1 && v->kind == 1)
        return u->number <= v->number;
    return u->kind == v->kind && u->number == v->number;
}

static int reach(const struct constraint *psi, const struct term *t, int reached)
{
    for (int place = reached; place < NUMBER; place++)
        if (linked(t, &psi[order[place]].low)) {
            int held = order[place];
            order[place] = order[reached];
            order[reached++] = held;
        }
    return reached;
}

static void number_places(void)
{
    for (int place = 0; place < NUMBER; place++)
        order[place] = place;
}

static int leads(const struct constraint *psi, const struct term *u, const struct term *v)
{
    if (linked(u, v))
        return 1;
    number_places();
    int reached = reach(psi, u, 0);
    for (int next = 0; next < reached; next++) {
        const struct term *high = &psi[order[next]].high;
        if (linked(high, v))
            return 1;
        reached = reach(psi, high, reached);
    }
    return 0;
}

static int before(const struct term *t, long number)
{
    return t->kind == 0 || (t->kind == 1 && t->number < number);
}

static int contradictory(const struct constraint *psi)
{
    number_places();
    int reached = 0, next = 0;
    for (;;) {
        int source = -1;
        for (int place = reached; place < NUMBER; place++) {
            const struct term *low = &psi[order[place]].low;
            if (low->kind == 1 && (source < 0 || low->number >= psi[order[source]].low.number))
                source = place;
        }
        if (source < 0)
            return 0;
        int held = order[source];
        order[source] = order[reached];
        order[reached++] = held;
        long number = psi[held].low.number;
        for (; next < reached; next++) {
            const struct term *high = &psi[order[next]].high;
            if (before(high, number))
                return 1;
            reached = reach(psi, high, reached);
        }
    }
}

__attribute__((noinline)) static int ask(const struct constraint *psi, struct term u, struct term v)
{
    return leads(psi, &u, &v) || contradictory(psi);
}

static struct term at_step(int step, struct term from, struct term to)
{
    struct term other = { 2, step };
    return step == 0 ? from : step == NUMBER ? to : other;
}

static double now(void)
{
    struct timespec t;
    clock_gettime(CLOCK_MONOTONIC, &t);
    return t.tv_sec * 1e9 + t.tv_nsec;
}

static struct constraint sets[3][NUMBER];

int main(void)
{
    struct term first = { 2, 0 }, current = { 2, -1 }, other = { 2, 9999 }, one = { 1, 1 }, zero = { 1, 0 }, start = { 0, 0 };
    for (int place = 0; place < NUMBER; place++) {
        int step = NUMBER - 1 - place;
        struct constraint a = { at_step(step, first, current), at_step(step + 1, first, current) };
        struct constraint b = { at_step(step, one, zero), at_step(step + 1, one, zero) };
        struct constraint c = { { 1, place }, at_step(place, start, current) };
        sets[0][place] = a;
        sets[1][place] = b;
        sets[2][place] = c;
    }
    struct { struct constraint *psi; struct term u, v; int expected; } questions[4] = {
        { sets[0], first, current, 1 }, { sets[0], first, other, 0 }, { sets[1], one, other, 1 }, { sets[2], first, other, 1 },
    };
    for (int i = 0; i < 4; i++) {
        double least = 1e18;
        for (int round = 0; round < ROUNDS; round++) {
            double begin = now();
            for (int k = 0; k < COUNT; k++)
                if (ask(questions[i].psi, questions[i].u, questions[i].v) != questions[i].expected)
                    return 1;
            double time = (now() - begin) / COUNT;
            if (time < least)
                least = time;
        }
        printf("%.0f ", least);
    }
    printf("\n");
    return 0;
}
