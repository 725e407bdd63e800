/* Writes random tables with cfitsio into a folder, FOLDER/cfitsioN.fits, and beside each, in .written, the lines that
   `cells` must print of it after those of its layout, made from the values that were handed to cfitsio.
     cfitsio_write SEED TABLES FOLDER */
#include "cfitsio_values.h"
#include <stdlib.h>
#include <string.h>

#define COLUMNS 12
#define ROWS 12
#define ITEMS 24
#define FILL 32

typedef struct {
    int count; /* of items; bits for X */
    unsigned char values[16 * ITEMS];
    char nulls[ITEMS];
} content;

static uint64_t state;
static char array[COLUMNS], letter[COLUMNS]; /* P, Q, or 0 for a field */
static int count[COLUMNS];
static content contents[ROWS][COLUMNS];

static unsigned below(unsigned bound) {
    state ^= state << 13;
    state ^= state >> 7;
    state ^= state << 17;
    return (state * 0x2545F4914F6CDD1D >> 33) % bound;
}

static void write_logicals(fitsfile *table, int n, LONGLONG row, content *of, int *status) {
    for (int k = 0; k < of->count; k++)
        of->values[k] %= 2;
    fits_write_col(table, TLOGICAL, n + 1, row + 1, 1, of->count, of->values, status);
    if (array[n])
        return;
    for (int k = 0; k < of->count; k++)
        if ((of->nulls[k] = below(4) == 0))
            fits_write_col_null(table, n + 1, row + 1, k + 1, 1, status);
}

static void write_bits(fitsfile *table, int n, LONGLONG row, content *of, int *status) {
    char bits[ITEMS];
    if (of->count % 8)
        of->values[of->count / 8] &= 0xFF00 >> of->count % 8;
    for (int k = 0; k < of->count; k++)
        bits[k] = of->values[k / 8] >> (7 - k % 8) & 1;
    fits_write_col_bit(table, n + 1, row + 1, 1, of->count, bits, status);
}

/* A string of full length, or a shorter one, which cfitsio fills up. */
static void write_text(fitsfile *table, int n, LONGLONG row, content *of, int *status) {
    char text[ITEMS + 1] = {0}, *texts = text;
    int length = array[n] || below(2) ? of->count : 1 + (int)below(of->count);
    for (int k = 0; k < of->count; k++)
        of->values[k] = k < length ? 33 + of->values[k] % 94 : FILL;
    memcpy(text, of->values, length);
    fits_write_col(table, TSTRING, n + 1, row + 1, 1, 1, &texts, status);
}

static void write_content(fitsfile *table, int n, LONGLONG row, int items, int *status) {
    content *of = &contents[row][n];
    memset(of, 0, sizeof *of);
    of->count = items;
    if (!items)
        return;
    for (int k = 0; k < 16 * items; k++)
        of->values[k] = below(256);
    switch (letter[n]) {
    case 'L': write_logicals(table, n, row, of, status); break;
    case 'X': write_bits(table, n, row, of, status); break;
    case 'A': write_text(table, n, row, of, status); break;
    default: fits_write_col(table, natural_type(letter[n]), n + 1, row + 1, 1, items, of->values, status);
    }
}

/* Rows come in any order, and some arrays are written again, longer or shorter: the heap keeps the first. */
static void write_rows(fitsfile *table, int columns, int rows, int *status) {
    for (int row = 0; row < rows; row++)
        for (int n = 0; n < columns; n++)
            write_content(table, n, row, array[n] ? (int)below(9) : count[n], status);
    for (int k = 0; k < columns * rows / 2; k++) {
        int n = below(columns), row = below(rows);
        /* Bits behind the last stay as they were in the byte, so there are none. */
        int items = letter[n] == 'X' ? 8 * (1 + (int)below(ITEMS / 8)) : 1 + (int)below(ITEMS);
        write_content(table, n, row, array[n] ? items : count[n], status);
    }
}

static void write_listing(const char *name, int columns, int rows) {
    FILE *out = fopen(name, "w");
    int cells = 0;
    for (int row = 0; row < rows; row++)
        for (int n = 0; n < columns; n++) {
            content *of = &contents[row][n];
            int items = letter[n] == 'X' ? (of->count + 7) / 8 : of->count;
            for (int k = 0; k < items; k++, cells++) {
                fprintf(out, "cell %d %d %d ", row, n, k);
                print_value(out, letter[n], of->values, of->nulls, k);
            }
        }
    fprintf(out, "end %d\n", cells);
    fclose(out);
}

static void write_table(const char *folder, int number, int *status) {
    char name[4096], forms[COLUMNS][16], names[COLUMNS][16], *form[COLUMNS], *column[COLUMNS];
    int columns = 1 + below(COLUMNS), rows = 1 + below(ROWS);
    for (int n = 0; n < columns; n++) {
        array[n] = "PQ\0\0"[below(4)];
        letter[n] = "LXBIJKAEDCM"[below(11)];
        count[n] = array[n] ? 1 : 1 + below(ITEMS);
        char kind[2] = {array[n], 0};
        snprintf(forms[n], sizeof forms[n], "%d%s%c", count[n], kind, letter[n]);
        snprintf(names[n], sizeof names[n], "C%d", n + 1);
        form[n] = forms[n];
        column[n] = names[n];
    }
    fitsfile *table = NULL;
    snprintf(name, sizeof name, "!%s/cfitsio%d.fits", folder, number);
    fits_create_file(&table, name, status);
    fits_create_tbl(table, BINARY_TBL, 0, columns, column, form, NULL, "SCAN", status);
    write_rows(table, columns, rows, status);
    if (below(4) == 0)
        fits_compress_heap(table, status);
    fits_close_file(table, status);
    snprintf(name, sizeof name, "%s/cfitsio%d.written", folder, number);
    write_listing(name, columns, rows);
}

int main(int words, char **word) {
    int status = 0;
    if (words != 4)
        return 2;
    state = 0x9E3779B97F4A7C15 * strtoull(word[1], NULL, 10) + 1;
    for (int number = 0; number < atoi(word[2]) && !status; number++)
        write_table(word[3], number, &status);
    fits_report_error(stderr, status);
    return status != 0;
}
