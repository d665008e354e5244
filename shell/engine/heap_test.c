/* The heap beside random calls: heap_test [SEED]. Each block is filled with the number of its place; after each thousand calls all
 * blocks are walked through. It prints what it did, or stops at the line of the first thing that is wrong. Built by any compiler. */
#include "heap.c"
#include <stdio.h>
#include <stdlib.h>
#include <string.h>

enum { MOST = 3 << 24, PLACES = 2000, CALLS = 3000000 };
static unsigned char memory[MOST] __attribute__((aligned(65536)));
static word pages = 16;
word first_address(void) { return (word)memory + 40; }
word memory_end(void) { return (word)memory + (pages << 16); }
int grow(word more) {
    if ((pages + more) << 16 > MOST) return 0;
    pages += more;
    return 1;
}

#define HOLD(fact) ((fact) ? (void)0 : wrong(__LINE__))
static void wrong(int line) {
    printf("heap_test.c:%d is wrong\n", line);
    exit(1);
}

static unsigned char *at[PLACES];
static word size[PLACES];

/* each block is whole, no two free ones lie side by side, and the lists have the free ones and no others */
static void walk(void) {
    Block *it = (Block *)rounded(first_address());
    word after_live = AFTER_LIVE, free_blocks = 0;
    for (; it != rest; it = at_offset(it, size_of(it))) {
        HOLD(it < rest && size_of(it) >= LEAST && (it->head & AFTER_LIVE) == after_live);
        after_live = it->head & LIVE ? AFTER_LIVE : 0;
        if (after_live) continue;
        free_blocks++;
        HOLD(at_offset(it, size_of(it))->size_in_front == size_of(it));
    }
    HOLD(after_live && rest->head == AFTER_LIVE && (word)rest + HEAD <= room_end);
    for (word bin = 0; bin < BINS; bin++) {
        HOLD(!!bins[bin] == (has_blocks[bin / 64] >> bin % 64 & 1));
        for (Block *one = bins[bin]; one; one = one->next) {
            HOLD(bin_of(size_of(one)) == bin && !(one->head & LIVE) && (!one->next || one->next->previous == one));
            free_blocks--;
        }
    }
    HOLD(free_blocks == 0);
}

static void is_filled(int place, word bytes) {
    for (word one = 0; one < bytes; one += bytes / 7 + 1) HOLD(at[place][one] == (place & 255));
    if (bytes) HOLD(at[place][bytes - 1] == (place & 255));
}

static word some_size(void) {
    int kind = rand() % 1000;
    return kind < 5 ? 0 : kind < 900 ? rand() % 300 : kind < 995 ? rand() % 20000 : rand() % 4000000;
}

static int fill(int place, Answer answer, word bytes) {
    if (!answer.is_there) return 1;
    at[place] = answer.at;
    size[place] = bytes;
    HOLD(((word)answer.at & 15) == 0);
    memset(at[place], place & 255, bytes);
    return 0;
}

int main(int count, char **words) {
    unsigned long refused = 0;
    srand(count > 1 ? atoi(words[1]) : 1);
    for (int call = 0; call < CALLS; call++) {
        int place = rand() % PLACES;
        word bytes = some_size();
        if (!at[place]) refused += fill(place, rattle_alloc(bytes, 8), bytes);
        else if (rand() & 1) {
            is_filled(place, size[place]);
            rattle_dealloc(at[place]);
            at[place] = 0;
        } else {
            Answer answer = rattle_realloc(at[place], size[place], bytes, 8);
            if (answer.is_there) {
                at[place] = answer.at;
                is_filled(place, size[place] < bytes ? size[place] : bytes);
            }
            refused += fill(place, answer, bytes);
        }
        if (call % 1000 == 0) walk();
    }
    for (int place = 0; place < PLACES; place++)
        if (at[place]) {
            is_filled(place, size[place]);
            rattle_dealloc(at[place]);
        }
    walk();
    HOLD(rest == (Block *)rounded(first_address()));
    HOLD(!rattle_alloc(1ul << 41, 8).is_there && !rattle_alloc(MOST, 8).is_there);
    printf("%d calls, %lu refused, %lu pages, all given back\n", CALLS, refused, pages);
    return 0;
}
