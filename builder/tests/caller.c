// A caller in C of the archive that ships. It says which calls are answered otherwise than document 01 has it, and then how many calls there were.

// The kit has no headers of C's library.
typedef __UINT64_TYPE__ uint64_t;
typedef __UINT8_TYPE__ uint8_t;
typedef __SIZE_TYPE__ size_t;
#define NULL ((void *)0)

int printf(const char *format, ...);

uint64_t tukinraso_size(uint64_t k, uint64_t m, uint64_t key, uint64_t word);
uint64_t tukinraso_scan(uint64_t k, uint64_t m, uint64_t key,
                        const uint8_t *seq, size_t seq_len, uint8_t *room, size_t room_len);

// A refused answer: 2^63 plus 65,536 times the number plus the place of a bad letter.
#define REFUSED(number, place) (9223372036854775808u + 65536u * (uint64_t)(number) + (place))
#define HUGE 18446744073709551615u
#define PATTERN 0xA5

static unsigned calls, differ;

static void held(const char *call, uint64_t got, uint64_t expected) {
    calls++;
    if (got != expected) {
        differ++;
        printf("%s: answered %llx, and %llx is right\n", call, (unsigned long long)got, (unsigned long long)expected);
    }
}

static void sizes(void) {
    held("W1, word A", tukinraso_size(2, 1, 1, 0), 5);
    held("W1, word C", tukinraso_size(2, 1, 1, 1), 7);
    held("W1, word G", tukinraso_size(2, 1, 1, 2), 1);
    held("W1, word T", tukinraso_size(2, 1, 1, 3), 3);
    held("W2", tukinraso_size(3, 2, 0, 10), 3);
    held("W3", tukinraso_size(4, 3, 48, 0), 4);
    held("W4", tukinraso_size(3, 2, 3, 12), 0);
    held("k 31, key A, word A", tukinraso_size(31, 1, 0, 0), 4611068345031103957u);
    held("k 31, key A, word T", tukinraso_size(31, 1, 0, 3), 1);
    held("W12, k 0 with m 0", tukinraso_size(0, 0, 0, 0), REFUSED(1, 0));
    held("W12, m above k", tukinraso_size(3, 4, 0, 0), REFUSED(2, 0));
    held("W12, key and word", tukinraso_size(3, 2, 16, 16), REFUSED(3, 0));
    held("word", tukinraso_size(3, 2, 15, 16), REFUSED(4, 0));
    held("all huge", tukinraso_size(HUGE, HUGE, HUGE, HUGE), REFUSED(1, 0));
}

// A sequence of up to 65,537 letters, and room for its positions with some bytes more.
static uint8_t seq[65537], room[4 * 65537 + 8];

// Scans so many letters, which are `text` and then A, into so many bytes of a room that is set to a pattern. Compares the answer, and every byte of
// the room: each window has its position there, and the pattern follows.
static void scan(const char *call, uint64_t k, uint64_t m, uint64_t key, const char *text, size_t letters, size_t bytes,
                  uint64_t expected, const unsigned *positions) {
    size_t i, windows = expected < REFUSED(0, 0) ? expected : 0;
    for (i = 0; i < sizeof seq; i++) seq[i] = 'A';
    for (i = 0; text[i] != 0; i++) seq[i] = (uint8_t)text[i];
    for (i = 0; i < sizeof room; i++) room[i] = PATTERN;
    held(call, tukinraso_scan(k, m, key, seq, letters, room, bytes), expected);
    for (i = 0; i < sizeof room; i++) {
        unsigned position = i / 4 >= windows ? 0 : positions == NULL ? i / 4 : positions[i / 4];
        uint8_t right = i / 4 >= windows ? PATTERN : (uint8_t)(position >> 8 * (3 - i % 4));
        if (room[i] != right) {
            differ++;
            printf("%s: byte %lu of the room is %u, and %u is right\n", call, (unsigned long)i, room[i], right);
            return;
        }
    }
}

// No positions stands for 0, 1, 2 and so on: each window's first.
static void scans(void) {
    static const unsigned w9[] = {0, 1, 4, 4, 4}, w10[] = {2, 3, 3, 3, 6};
    scan("W9", 4, 2, 0, "ACGTACGA", 8, 20, 5, w9);
    scan("W10, bytes to spare", 4, 2, 15, "ACGTACGA", 8, 23, 5, w10);
    scan("W11", 3, 2, 9, "AAAA", 4, 8, 2, NULL);
    scan("k 0", 0, 2, 0, "ACGTACGA", 8, 20, REFUSED(1, 0), NULL);
    scan("m above k", 4, 5, 0, "ACGTACGA", 8, 20, REFUSED(2, 0), NULL);
    scan("key", 4, 2, 16, "ACGTACGA", 8, 20, REFUSED(3, 0), NULL);
    scan("65,536 letters", 31, 11, 7, "", 65536, 262024, 65506, NULL);
    scan("65,537 letters", 31, 11, 7, "", 65537, 262028, REFUSED(5, 0), NULL);
    scan("a bad letter", 4, 2, 0, "ACGTaCGA", 8, 20, REFUSED(6, 4), NULL);
    scan("a room one byte short", 4, 2, 0, "ACGTACGA", 8, 19, REFUSED(7, 0), NULL);
    scan("a room three bytes short", 4, 2, 0, "ACGTACGA", 8, 17, REFUSED(7, 0), NULL);
    scan("no room, no window", 4, 2, 0, "ACG", 3, 0, 0, NULL);
}

// A null pointer goes with the length 0, for the sequence, the room or both.
static void nulls(void) {
    static const uint8_t letters[] = {'A', 'C', 'G'};
    uint8_t bytes[4] = {PATTERN, PATTERN, PATTERN, PATTERN};
    held("nothing", tukinraso_scan(1, 1, 0, NULL, 0, NULL, 0), 0);
    held("nothing, k 31", tukinraso_scan(31, 31, 1, NULL, 0, NULL, 0), 0);
    held("nothing, k 0", tukinraso_scan(0, 1, 0, NULL, 0, NULL, 0), REFUSED(1, 0));
    held("nothing, m huge", tukinraso_scan(31, HUGE, 0, NULL, 0, NULL, 0), REFUSED(2, 0));
    held("nothing, key huge", tukinraso_scan(31, 31, HUGE, NULL, 0, NULL, 0), REFUSED(3, 0));
    held("no sequence", tukinraso_scan(1, 1, 0, NULL, 0, bytes, sizeof bytes), 0);
    for (size_t i = 0; i < sizeof bytes; i++) {
        if (bytes[i] != PATTERN) {
            differ++;
            printf("no sequence: the room was changed\n");
        }
    }
    held("no room, a window", tukinraso_scan(3, 2, 1, letters, sizeof letters, NULL, 0), REFUSED(7, 0));
    held("no room, no window", tukinraso_scan(4, 2, 1, letters, sizeof letters, NULL, 0), 0);
}

int main(void) {
    sizes();
    scans();
    nulls();
    printf("%u calls, %u differ\n", calls, differ);
    return differ != 0;
}
