/* What the program calls of the C library, as WebAssembly: over five calls that its host offers (host.js).
 *
 * The host answers a number, or an error's number with a minus. Addresses lie below 4 GiB, so it gets them with 32 bits. */
typedef unsigned int short_address;
typedef unsigned long word;
#define HOST(name) __attribute__((import_module("host"), import_name(name)))
HOST("open") int host_open(short_address name, short_address length, int flags);
HOST("read") int host_read(int file, short_address into, short_address length);
HOST("write") int host_write(int file, short_address from, short_address length);
HOST("close") int host_close(int file);
HOST("word") int host_word(short_address number, short_address into, short_address room);

enum { MOST_AT_ONCE = 1 << 30, NO_SEEKING = 29, NO_SUCH = 22 };
static int last_error;

static short_address shortened(const volatile void *at) { return (short_address)(word)at; }
static short_address part_of(word length) { return length > MOST_AT_ONCE ? MOST_AT_ONCE : (short_address)length; }
static long answered(int answer) {
    if (answer >= 0) return answer;
    last_error = -answer;
    return -1;
}

void rattle_set_errno(int error) { last_error = error; }
int rattle_errno(void) { return last_error; }

int open(const char *name, int flags, ...) {
    short_address length = 0;
    while (name[length]) length++;
    return (int)answered(host_open(shortened(name), length, flags));
}
long read(int file, void *into, word length) { return answered(host_read(file, shortened(into), part_of(length))); }
long write(int file, const void *from, word length) { return answered(host_write(file, shortened(from), part_of(length))); }
int close(int file) { return (int)answered(host_close(file)); }

/* files are in memory, so there is nothing to be made safe on a disk */
int fdatasync(int file) {
    (void)file;
    return 0;
}

/* the length of a word of the command line; -1 where there is none, -2 where it has no room */
long rattle_arg(word number, void *into, word room) { return host_word(part_of(number), shortened(into), part_of(room)); }

/* no signal ever comes */
word __sysv_signal(int number, word action) {
    (void)number;
    (void)action;
    return 0;
}

/* The program first asks whether the processor has all of x86-64-v2. Its code is WebAssembly here, so the answer is yes. */
void *__x86_get_cpuid_feature_leaf(unsigned leaf) {
    static const unsigned char all[32] = {[0 ... 31] = 255};
    (void)leaf;
    return (void *)all;
}

/* what the library can ask and this program never does: a place in a file, and an error's text */
word __write(int file, const void *from, word length) { return (word)write(file, from, length); }
long lseek(int file, long to, int whence) {
    (void)file;
    (void)to;
    (void)whence;
    last_error = NO_SEEKING;
    return -1;
}
int __xpg_strerror_r(int error, char *into, word room) {
    (void)error;
    if (room) *into = 0;
    return NO_SUCH;
}

/* a product of 128 bits, which a checked product of 64 bits is made of; by the parts of 32 bits */
typedef unsigned __int128 wide;
wide __multi3(wide one, wide other) {
    word low = (word)one, other_low = (word)other, mask = 0xffffffff;
    word a = low & mask, b = low >> 32, c = other_low & mask, d = other_low >> 32;
    word lowest = a * c, first = b * c + (lowest >> 32), second = a * d + (first & mask);
    word top = b * d + (first >> 32) + (second >> 32);
    top += low * (word)(other >> 64) + (word)(one >> 64) * other_low;
    return (wide)top << 64 | (second << 32 | (lowest & mask));
}
