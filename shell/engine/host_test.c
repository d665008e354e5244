/* The host's functions in C, beside what this machine's own do: host_test [SEED]. The host below them is a few lines here, which
 * remember what they were asked. It prints what it did, or stops at the line of the first thing that is wrong. Any compiler builds it. */
#include <stdio.h>
#include <stdlib.h>
#include <string.h>
#define open host_c_open
#define read host_c_read
#define write host_c_write
#define close host_c_close
#define lseek host_c_lseek
#define fdatasync host_c_fdatasync
#define __write host_c__write
#define __sysv_signal host_c_signal
#define __xpg_strerror_r host_c_strerror
#define __multi3 host_c_product
#define __x86_get_cpuid_feature_leaf host_c_leaf
#include "host.c"

enum { PRODUCTS = 3000000 };
static unsigned asked_length;
static int asked_flags, asked_file, answer;

int host_open(short_address name, short_address length, int flags) {
    (void)name;
    asked_length = length;
    asked_flags = flags;
    return answer;
}
int host_read(int file, short_address into, short_address length) {
    (void)into;
    asked_file = file;
    asked_length = length;
    return answer;
}
int host_write(int file, short_address from, short_address length) { return host_read(file, from, length); }
int host_close(int file) { return host_read(file, 0, 0); }
int host_word(short_address number, short_address into, short_address room) { return host_read((int)number, into, room); }

#define HOLD(fact) ((fact) ? (void)0 : wrong(__LINE__))
static void wrong(int line) {
    printf("host_test.c:%d is wrong\n", line);
    exit(1);
}

static word some_word(void) {
    word made = ((word)rand() << 42) ^ ((word)rand() << 21) ^ (word)rand();
    int kind = rand() % 8;
    return kind == 0 ? 0 : kind == 1 ? ~0ul : kind == 2 ? 1ul << rand() % 64 : kind == 3 ? made >> rand() % 64 : made;
}

static void try_products(void) {
    for (int at = 0; at < PRODUCTS; at++) {
        wide one = (wide)some_word() << 64 | some_word(), other = (wide)some_word() << 64 | some_word();
        HOLD(__multi3(one, other) == one * other);
    }
}

static void try_calls(void) {
    char room[4];
    answer = 7;
    HOLD(open("name", 3) == 7 && asked_length == strlen("name") && asked_flags == 3);
    HOLD(read(5, room, 4) == 7 && asked_file == 5 && asked_length == 4);
    HOLD(write(6, room, 1ul << 33) == 7 && asked_file == 6 && asked_length == MOST_AT_ONCE);
    HOLD(close(9) == 0 + 7 && asked_file == 9);
    HOLD(rattle_arg(2, room, 4) == 7 && asked_file == 2 && asked_length == 4);
    answer = -2;
    HOLD(open("", 0) == -1 && rattle_errno() == 2 && asked_length == 0);
    answer = -5;
    HOLD(read(0, room, 4) == -1 && rattle_errno() == 5);
    rattle_set_errno(0);
    HOLD(rattle_errno() == 0 && fdatasync(1) == 0 && lseek(0, 0, 0) == -1 && rattle_errno() == NO_SEEKING);
    answer = -1;
    HOLD(rattle_arg(9, room, 4) == -1);
    answer = -2;
    HOLD(rattle_arg(9, room, 4) == -2);
}

int main(int count, char **words) {
    srand(count > 1 ? atoi(words[1]) : 1);
    try_calls();
    try_products();
    printf("%d products, and the calls\n", PRODUCTS);
    return 0;
}
