// A table of a FITS file in memory through cfitsio: its cells' checksum, by whole columns and by chunks of rows.
#include <fitsio.h>
#include <stdint.h>
#include <stdlib.h>

enum { LIMIT = 64 };

struct column {
    int number;
    int type;
    LONGLONG repeat;
    int is_array;
    void *values;
    // cells that `values` has room for
    LONGLONG room;
};

static uint32_t add(uint32_t sum, uint32_t word) {
    return sum * 31 + word;
}

static size_t width(int type) {
    switch (type) {
    case TSHORT:
        return 2;
    case TDOUBLE:
        return 8;
    default:
        return 4;
    }
}

// The cells of `rows` rows of a column from row `row` on, n in each; they stand in its buffer from index `at` on.
static uint32_t add_cells(uint32_t sum, const struct column *column, LONGLONG at, LONGLONG row, LONGLONG rows,
                          LONGLONG n) {
    const uint16_t *shorts = column->values;
    const uint32_t *words = column->values;
    const uint64_t *longs = column->values;
    uint32_t index = (uint32_t)column->number - 1;
    for (LONGLONG r = row - 1; r < row - 1 + rows; r++) {
        for (LONGLONG i = 0; i < n; i++, at++) {
            sum = add(add(add(sum, (uint32_t)r), index), (uint32_t)i);
            switch (column->type) {
            case TSHORT:
                sum = add(sum, shorts[at]);
                break;
            case TDOUBLE:
                sum = add(add(sum, (uint32_t)(longs[at] >> 32)), (uint32_t)longs[at]);
                break;
            default:
                sum = add(sum, words[at]);
            }
        }
    }
    return sum;
}

static void make_room(struct column *column, LONGLONG n) {
    if (column->room < n) {
        free(column->values);
        column->values = malloc((size_t)n * width(column->type));
        column->room = n;
    }
}

// n values of a column from a row on, into the front of its buffer.
static void read_values(fitsfile *file, struct column *column, LONGLONG row, LONGLONG n, int *status) {
    int any;
    make_room(column, n);
    fits_read_col(file, column->type, column->number, row, 1, n, NULL, column->values, &any, status);
}

// The array of a row.
static uint32_t add_array(uint32_t sum, fitsfile *file, struct column *column, LONGLONG row, int *status) {
    LONGLONG n, offset;
    fits_read_descriptll(file, column->number, row, &n, &offset, status);
    read_values(file, column, row, n, status);
    return add_cells(sum, column, 0, row, 1, n);
}

// cfitsio keeps both pointers until the file is closed.
static fitsfile *open_table(void **bytes, size_t *len, int *status) {
    fitsfile *file = NULL;
    fits_open_memfile(&file, "memory.fits", READONLY, bytes, len, 0, NULL, status);
    fits_movabs_hdu(file, 2, NULL, status);
    return file;
}

static void describe(fitsfile *file, struct column *columns, const size_t *indexes, size_t count, int *status) {
    for (size_t c = 0; c < count; c++) {
        struct column *column = &columns[c];
        LONGLONG bytes;
        int type;
        column->number = (int)indexes[c] + 1;
        fits_get_coltypell(file, column->number, &type, &column->repeat, &bytes, status);
        column->is_array = type < 0;
        type = abs(type);
        // J is `long` for cfitsio, whose C type may be wider.
        column->type = type == TLONG ? TINT : type;
        column->values = NULL;
        column->room = 0;
    }
}

static uint32_t by_columns(fitsfile *file, struct column *columns, size_t count, LONGLONG rows, int *status) {
    uint32_t sum = 0;
    for (size_t c = 0; c < count; c++) {
        if (columns[c].is_array) {
            for (LONGLONG row = 1; row <= rows; row++)
                sum = add_array(sum, file, &columns[c], row, status);
        } else {
            read_values(file, &columns[c], 1, rows * columns[c].repeat, status);
            sum = add_cells(sum, &columns[c], 0, 1, rows, columns[c].repeat);
        }
    }
    return sum;
}

// The cells of a row whose chunk starts at row `first`.
static uint32_t add_row(uint32_t sum, fitsfile *file, struct column *columns, size_t count, LONGLONG first, LONGLONG row, int *status) {
    for (size_t c = 0; c < count; c++) {
        struct column *column = &columns[c];
        if (column->is_array)
            sum = add_array(sum, file, column, row, status);
        else
            sum = add_cells(sum, column, (row - first) * column->repeat, row, 1, column->repeat);
    }
    return sum;
}

static uint32_t by_rows(fitsfile *file, struct column *columns, size_t count, LONGLONG rows, int *status) {
    uint32_t sum = 0;
    long chunk;
    fits_get_rowsize(file, &chunk, status);
    for (LONGLONG first = 1; first <= rows; first += chunk) {
        LONGLONG n = rows - first + 1 < chunk ? rows - first + 1 : chunk;
        for (size_t c = 0; c < count; c++)
            if (!columns[c].is_array)
                read_values(file, &columns[c], first, n * columns[c].repeat, status);
        for (LONGLONG row = first; row < first + n; row++)
            sum = add_row(sum, file, columns, count, first, row, status);
    }
    return sum;
}

// 0 where cfitsio reports an error. The sum goes column by column or row by row.
uint64_t cfitsio_sum(void *bytes, size_t len, const size_t *indexes, size_t count, int whole_columns) {
    struct column columns[LIMIT];
    int status = 0;
    LONGLONG rows = 0;
    fitsfile *file = open_table(&bytes, &len, &status);
    fits_get_num_rowsll(file, &rows, &status);
    describe(file, columns, indexes, count, &status);
    uint32_t sum = (whole_columns ? by_columns : by_rows)(file, columns, count, rows, &status);
    fits_close_file(file, &status);
    for (size_t c = 0; c < count; c++)
        free(columns[c].values);
    return status == 0 ? sum : 0;
}

// Opening the file and moving to the table, which parses the header.
uint64_t cfitsio_open(void *bytes, size_t len) {
    int status = 0;
    LONGLONG rows = 0;
    fitsfile *file = open_table(&bytes, &len, &status);
    fits_get_num_rowsll(file, &rows, &status);
    fits_close_file(file, &status);
    return status == 0 ? (uint64_t)rows : 0;
}
