/* The small calls: what each number says, the version, and how long a table and its gains are. */
#include "show.h"

enum { BANDS = 3, ROWS = 250 };

static void lengths(uint32_t bands, uint32_t rows) {
    printf("%u bands, %u rows: %zu bytes\n", bands, rows, mst_table_bytes(bands, rows));
}

/* A table is read with no knowledge of its shape: how many gains to lend is asked of its bytes. */
static void read_unknown(const uint8_t *bytes, size_t n) {
    uint16_t gains[BANDS * ROWS];
    uint32_t bands = 0, rows = 0;
    const size_t m = mst_table_gains(bytes, n);
    const uint64_t answer = m <= BANDS * ROWS ? mst_table_read(bytes, n, gains, m, &bands, &rows) : MST_LENGTH;
    printf("%zu gains: %s, %u bands, %u rows\n", m, mst_text(mst_number(answer)), bands, rows);
}

int main(void) {
    static uint16_t gains[BANDS * ROWS];
    static uint8_t bytes[2048];
    for (unsigned number = 0; number <= 16; number++)
        printf("%u: %s\n", number, mst_text(number));
    printf("version %s, header and library %s\n", MST_VERSION_TEXT, MST_VERSION == mst_version() ? "agree" : "differ");

    lengths(1, 1);
    lengths(BANDS, ROWS);
    lengths(64, 1024);
    lengths(65, 1);
    lengths(0, 1);
    for (size_t i = 0; i < ROWS; i++)
        gains[BANDS * i] = MST_PARTS;
    mst_table_write(BANDS, ROWS, gains, BANDS * ROWS, bytes, sizeof bytes);
    read_unknown(bytes, sizeof bytes);
    bytes[100] ^= 1;
    read_unknown(bytes, sizeof bytes);
    read_unknown(bytes, 7);
    return 0;
}
