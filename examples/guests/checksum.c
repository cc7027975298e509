// Checksums of some texts and of 60,000 bytes: CRC-32, Adler-32 and FNV-1a. Each is noted.
#include "notes.h"

static uint32_t crc_table[256];
static uint8_t bytes[60000];

static void fill_crc_table(void) {
    for (uint32_t i = 0; i < 256; i++) {
        uint32_t rest = i;
        for (int bit = 0; bit < 8; bit++)
            rest = (rest & 1) ? (rest >> 1) ^ 0xEDB88320u : rest >> 1;
        crc_table[i] = rest;
    }
}

static uint32_t crc_32(const uint8_t *from, uint32_t count) {
    uint32_t rest = UINT32_MAX;
    for (uint32_t i = 0; i < count; i++)
        rest = crc_table[(rest ^ from[i]) & 0xFF] ^ (rest >> 8);
    return ~rest;
}

static uint32_t adler_32(const uint8_t *from, uint32_t count) {
    uint32_t a = 1, b = 0;
    for (uint32_t i = 0; i < count; i++) {
        a = (a + from[i]) % 65521;
        b = (b + a) % 65521;
    }
    return b << 16 | a;
}

static uint64_t fnv_1a(const uint8_t *from, uint32_t count) {
    uint64_t hash = 0xCBF29CE484222325u;
    for (uint32_t i = 0; i < count; i++)
        hash = (hash ^ from[i]) * 0x100000001B3u;
    return hash;
}

static void note_sums(const uint8_t *from, uint32_t count) {
    liblog_note(crc_32(from, count));
    liblog_note(adler_32(from, count));
    liblog_note((int64_t)fnv_1a(from, count));
}

static void note_sums_of_text(const char *text) {
    uint32_t count = 0;
    while (text[count] != 0)
        count++;
    note_sums((const uint8_t *)text, count);
}

// The bytes of a generator, which uses the 64-bit shifts and products.
static void fill_bytes(uint64_t state) {
    for (uint32_t i = 0; i < sizeof bytes; i++) {
        state ^= state >> 12;
        state ^= state << 25;
        state ^= state >> 27;
        bytes[i] = (uint8_t)((state * 0x2545F4914F6CDD1Du) >> 56);
    }
}

void _start(void) {
    fill_crc_table();
    note_sums_of_text("");
    note_sums_of_text("123456789");
    note_sums_of_text("The quick brown fox jumps over the lazy dog");
    fill_bytes(88172645463325252u);
    note_sums(bytes, sizeof bytes);
    note_bytes(bytes, 32);
}
