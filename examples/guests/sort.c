// Sorts the same records by several orders, each a function that the sort calls through a pointer.
#include "liblog.h"

enum { COUNT = 2000 };

struct record {
    int32_t key;
    uint32_t place;
};

typedef int order(const struct record *, const struct record *);

static struct record records[COUNT];
static uint32_t comparisons;

static int by_key(const struct record *a, const struct record *b) {
    return (a->key > b->key) - (a->key < b->key);
}

static int by_falling_key(const struct record *a, const struct record *b) {
    return by_key(b, a);
}

static int by_unsigned_key(const struct record *a, const struct record *b) {
    uint32_t left = (uint32_t)a->key, right = (uint32_t)b->key;
    return (left > right) - (left < right);
}

static int by_bits(const struct record *a, const struct record *b) {
    int difference = __builtin_popcount((uint32_t)a->key) - __builtin_popcount((uint32_t)b->key);
    return difference != 0 ? difference : (a->place > b->place) - (a->place < b->place);
}

static int by_remainder(const struct record *a, const struct record *b) {
    int difference = a->key % 97 - b->key % 97;
    return difference != 0 ? difference : by_key(a, b);
}

static order *const orders[] = {by_key, by_falling_key, by_unsigned_key, by_bits, by_remainder};

static void fill(void) {
    uint32_t state = 2463534242u;
    for (uint32_t i = 0; i < COUNT; i++) {
        state ^= state << 13;
        state ^= state >> 17;
        state ^= state << 5;
        records[i].key = (int32_t)state;
        records[i].place = i;
    }
}

static void swap(struct record *a, struct record *b) {
    struct record kept = *a;
    *a = *b;
    *b = kept;
}

// Whether a stands before b. A record is never equal to another one: their places differ.
static int stands_before(order *compare, const struct record *a, const struct record *b) {
    comparisons++;
    int answer = compare(a, b);
    return answer != 0 ? answer < 0 : a->place < b->place;
}

// Quicksort, by recursion into the shorter part.
static void sort(struct record *from, int32_t count, order *compare) {
    while (count > 1) {
        swap(&from[count / 2], &from[count - 1]);
        int32_t front = 0;
        for (int32_t i = 0; i < count - 1; i++)
            if (stands_before(compare, &from[i], &from[count - 1]))
                swap(&from[i], &from[front++]);
        swap(&from[front], &from[count - 1]);
        if (front < count - front) {
            sort(from, front, compare);
            from += front + 1;
            count -= front + 1;
        } else {
            sort(from + front + 1, count - front - 1, compare);
            count = front;
        }
    }
}

static uint64_t hash_of_places(void) {
    uint64_t hash = 0xCBF29CE484222325u;
    for (uint32_t i = 0; i < COUNT; i++)
        hash = (hash ^ records[i].place) * 0x100000001B3u;
    return hash;
}

void _start(void) {
    for (uint32_t i = 0; i < sizeof orders / sizeof orders[0]; i++) {
        fill();
        comparisons = 0;
        sort(records, COUNT, orders[i]);
        liblog_note(records[0].key);
        liblog_note(records[COUNT - 1].key);
        liblog_note(comparisons);
        liblog_note((int64_t)hash_of_places());
    }
    liblog_exit(-7);
}
