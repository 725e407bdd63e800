/* Prints the scaled values that cfitsio reads of the columns and arrays of numbers in the first extension of each file,
   after a line `file` with its name; the names come on the input, one on a line. A value is read as a double, whose
   bits stand behind an f. A column with the factor 1 and the zero of whole numbers without a sign, or of bytes with
   one, is read as such too, and the number stands in front. An error is a line `error` with its number. Where cfitsio
   has a missing value stands U: fits_read_colnull sets a flag.

   With the argument `plain` it prints the stored numbers of B, I, J and K, read as whole numbers and as doubles. */
#include <fitsio2.h>
#include <stdint.h>
#include <stdio.h>
#include <stdlib.h>
#include <string.h>

static int plain;

static int is_float(int type) {
    return type == TFLOAT || type == TDOUBLE;
}

/* The type of the whole numbers as which a column is read, or 0. */
static int whole_type(int type, const tcolumn *known) {
    double zero = type == TBYTE ? -128.0 : type == TSHORT ? 32768.0 : type == TLONG ? 2147483648.0 : 0x1p63;
    if (plain)
        return TLONGLONG;
    if (is_float(type) || known->tscale != 1.0 || known->tzero != zero)
        return 0;
    return type == TBYTE ? TLONGLONG : TULONGLONG;
}

static int is_read(int type) {
    return type == TBYTE || type == TSHORT || type == TLONG || type == TLONGLONG || (is_float(type) && !plain);
}

/* Of floats NaN would have a flag, so they are read without. Where there is a flag cfitsio writes to `any` too, and
   does not ask whether that is NULL. */
static void read_numbers(fitsfile *table, int as, int n, int type, LONGLONG row, LONGLONG count, void *into,
                         char *nulls, int *status) {
    int any = 0;
    if (is_float(type))
        fits_read_col(table, as, n + 1, row + 1, 1, count, NULL, into, NULL, status);
    else
        fits_read_colnull(table, as, n + 1, row + 1, 1, count, into, nulls, &any, status);
}

static void print_value(int as, char null, const void *values, LONGLONG k) {
    uint64_t bits;
    memcpy(&bits, (const char *)values + 8 * k, sizeof bits);
    if (null)
        printf(" U");
    else if (as == TDOUBLE)
        printf(" f%016lx", bits);
    else
        printf(as == TLONGLONG ? " %ld" : " %lu", bits);
}

static void print_field(fitsfile *table, int n, int type, LONGLONG row, LONGLONG count, int *status) {
    LONGLONG offset = 0;
    int whole = whole_type(abs(type), table->Fptr->tableptr + n);
    if (type < 0)
        fits_read_descriptll(table, n + 1, row + 1, &count, &offset, status);
    if (*status || count <= 0)
        return;
    double *doubles = calloc(count, sizeof *doubles);
    LONGLONG *numbers = calloc(count, sizeof *numbers);
    char *nulls = calloc(count, 1), *others = calloc(count, 1);
    read_numbers(table, TDOUBLE, n, abs(type), row, count, doubles, nulls, status);
    if (whole)
        read_numbers(table, whole, n, abs(type), row, count, numbers, others, status);
    for (LONGLONG k = 0; k < count && !*status; k++) {
        printf("cell %lld %d %lld", row, n, k);
        if (whole)
            print_value(whole, others[k], numbers, k);
        print_value(TDOUBLE, nulls[k], doubles, k);
        putchar('\n');
    }
    free(doubles);
    free(numbers);
    free(nulls);
    free(others);
}

static void print_table(const char *name, int *status) {
    fitsfile *table = NULL;
    int columns = 0, kind = 0, closed = 0;
    LONGLONG rows = 0;
    fits_open_diskfile(&table, name, READONLY, status);
    fits_movabs_hdu(table, 2, &kind, status);
    fits_get_num_cols(table, &columns, status);
    fits_get_num_rowsll(table, &rows, status);
    for (int n = 0; n < columns && plain; n++)
        fits_set_tscale(table, n + 1, 1.0, 0.0, status);
    for (LONGLONG row = 0; row < rows && !*status; row++)
        for (int n = 0; n < columns && !*status; n++) {
            int type = 0;
            LONGLONG count = 0;
            fits_get_coltypell(table, n + 1, &type, &count, NULL, status);
            if (!*status && is_read(abs(type)))
                print_field(table, n, type, row, count, status);
        }
    if (table)
        fits_close_file(table, &closed);
}

int main(int count, char **words) {
    char name[4096];
    plain = count == 2 && !strcmp(words[1], "plain");
    while (fgets(name, sizeof name, stdin)) {
        name[strcspn(name, "\n")] = 0;
        int status = 0;
        printf("file %s\n", name);
        print_table(name, &status);
        if (status)
            printf("error %d\n", status);
        fits_clear_errmsg();
    }
    return 0;
}
