/* Prints what cfitsio reads of the first extension of each file, in the form of the port's program `cells`, after a
   line `file` with its name. The names come on the input, one on a line. An error of cfitsio is a line `error` with
   its number in place of what would follow, or, if it is one of a field or array, a cell `(error NUMBER)`. Behind them
   are the columns of the names that are sought. */
#include "cfitsio_values.h"
#include <fitsio2.h>
#include <stdlib.h>
#include <string.h>

/* No table here has an array of so many items. */
#define MOST (1 << 20)

typedef struct {
    char array; /* P, Q, or 0 for a field */
    char letter;
    LONGLONG count;
    LONGLONG start;
} column;

static char letter_of(int type) {
    static const struct { int type; char letter; } letters[] = {
        {TBIT, 'X'}, {TBYTE, 'B'}, {TLOGICAL, 'L'}, {TSTRING, 'A'}, {TSHORT, 'I'}, {TLONG, 'J'},
        {TLONGLONG, 'K'}, {TFLOAT, 'E'}, {TDOUBLE, 'D'}, {TCOMPLEX, 'C'}, {TDBLCOMPLEX, 'M'},
    };
    for (size_t k = 0; k < sizeof letters / sizeof *letters; k++)
        if (letters[k].type == abs(type))
            return letters[k].letter;
    return '?';
}

/* The name as it stands in the header, where a quote is two. */
static void print_name(const char *name) {
    if (!*name)
        putchar('-');
    for (; *name; name++) {
        if (*name == '\'')
            putchar('\'');
        putchar(*name);
    }
    putchar('\n');
}

static column read_column(fitsfile *table, int n, int *status) {
    tcolumn *known = table->Fptr->tableptr + n;
    column found = {0, '?', 0, known->tbcol};
    int type = 0;
    LONGLONG width = 0;
    fits_get_coltypell(table, n + 1, &type, &found.count, &width, status);
    found.letter = letter_of(type);
    if (type < 0)
        found.array = strchr(known->tform, 'Q') ? 'Q' : 'P';
    printf("column %d %c %lld at %lld ", n, type < 0 ? found.array : found.letter, found.count, found.start);
    print_name(known->ttype);
    /* the stored numbers are wanted */
    fits_set_tscale(table, n + 1, 1.0, 0.0, status);
    return found;
}

/* The bytes of a field or array, without regard to what they stand for. */
static void raw(fitsfile *table, const column *from, LONGLONG row, LONGLONG offset, LONGLONG bytes, unsigned char *into,
                int *status) {
    FITSfile *file = table->Fptr;
    LONGLONG at = file->datastart + (from->array ? file->heapstart + offset : row * file->rowlength + from->start);
    ffmbyt(table, at, REPORT_EOF, status);
    ffgbyt(table, bytes, into, status);
}

/* fits_read_col ends a string at byte 0, so the bytes are read as such, and held to the string. */
static void read_text(fitsfile *table, int n, const column *from, LONGLONG row, LONGLONG offset, LONGLONG count,
                      unsigned char *into, int *status) {
    raw(table, from, row, offset, count, into, status);
    char *text = calloc(count + 1, 1);
    long width = from->array ? count : table->Fptr->tableptr[n].twidth;
    for (LONGLONG k = 0; k < count && width > 0 && !*status; k += width) {
        fits_read_col(table, TSTRING, n + 1, row + 1, k / width + 1, 1, NULL, &text, NULL, status);
        size_t length = strnlen((char *)into + k, width);
        if (!*status && (strlen(text) > length || memcmp(text, into + k, strlen(text)) ||
                         strspn((char *)into + k + strlen(text), " ") < length - strlen(text)))
            *status = -1;
    }
    free(text);
}

/* fits_read_col_bit has no bits behind the last, so the bytes are read as such, and held to the bits. */
static void read_bits(fitsfile *table, int n, const column *from, LONGLONG row, LONGLONG offset, LONGLONG count,
                      unsigned char *into, int *status) {
    raw(table, from, row, offset, (count + 7) / 8, into, status);
    char *bits = calloc(count, 1);
    fits_read_col_bit(table, n + 1, row + 1, 1, count, bits, status);
    for (LONGLONG k = 0; k < count && !*status; k++)
        if ((bits[k] != 0) != (into[k / 8] >> (7 - k % 8) & 1))
            *status = -2;
    free(bits);
}

static LONGLONG print_field(fitsfile *table, int n, const column *from, LONGLONG row, int *status) {
    LONGLONG count = from->count, offset = 0;
    if (from->array && count)
        fits_read_descriptll(table, n + 1, row + 1, &count, &offset, status);
    if (count > MOST) {
        printf("cell %lld %d 0 (count %lld)\n", row, n, count);
        return 1;
    }
    if (*status || count <= 0)
        return 0;
    void *values = calloc(count, 16);
    char *nulls = calloc(count, 1);
    if (from->letter == 'A')
        read_text(table, n, from, row, offset, count, values, status);
    else if (from->letter == 'X')
        read_bits(table, n, from, row, offset, count, values, status);
    else if (from->letter == 'L')
        fits_read_colnull(table, TLOGICAL, n + 1, row + 1, 1, count, values, nulls, NULL, status);
    else
        fits_read_col(table, natural_type(from->letter), n + 1, row + 1, 1, count, NULL, values, NULL, status);
    LONGLONG items = *status ? 0 : from->letter == 'X' ? (count + 7) / 8 : count;
    if (*status) {
        printf("cell %lld %d 0 (error %d)\n", row, n, *status);
        *status = 0;
    }
    for (LONGLONG k = 0; k < items; k++) {
        printf("cell %lld %d %lld ", row, n, k);
        print_value(stdout, from->letter, values, nulls, k);
    }
    free(values);
    free(nulls);
    return items;
}

/* Seeks the names in the file NAME.names, one on a line. COL_NOT_UNIQUE comes with a column, other errors do not. */
static void print_found(fitsfile *table, const char *name) {
    char path[5000], sought[4096];
    snprintf(path, sizeof path, "%s.names", name);
    FILE *names = fopen(path, "r");
    for (int k = 0; names && fgets(sought, sizeof sought, names); k++) {
        int column = 0, status = 0;
        sought[strcspn(sought, "\n")] = 0;
        fits_get_colnum(table, CASEINSEN, sought, &column, &status);
        if (status == COL_NOT_FOUND)
            printf("find %d none\n", k);
        else if (status)
            printf("find %d %d %d\n", k, column - 1, status);
        else
            printf("find %d %d\n", k, column - 1);
        fits_clear_errmsg();
    }
    if (names)
        fclose(names);
}

static void print_table(const char *name, int *status) {
    fitsfile *table = NULL;
    int columns = 0, kind = 0;
    LONGLONG rows = 0, cells = 0;
    fits_open_diskfile(&table, name, READONLY, status);
    fits_movabs_hdu(table, 2, &kind, status);
    fits_get_num_cols(table, &columns, status);
    fits_get_num_rowsll(table, &rows, status);
    if (!*status)
        printf("table %d columns %lld rows %lld bytes\n", columns, rows, table->Fptr->rowlength);
    column *known = calloc(columns + 1, sizeof *known);
    for (int n = 0; n < columns && !*status; n++)
        known[n] = read_column(table, n, status);
    for (LONGLONG row = 0; row < rows && !*status; row++)
        for (int n = 0; n < columns && !*status; n++)
            cells += print_field(table, n, known + n, row, status);
    if (!*status)
        printf("end %lld\n", cells);
    if (!*status)
        print_found(table, name);
    free(known);
    int closed = 0;
    if (table)
        fits_close_file(table, &closed);
}

int main(void) {
    char name[4096];
    while (fgets(name, sizeof name, stdin)) {
        name[strcspn(name, "\n")] = 0;
        int status = 0;
        printf("file %s\n", name);
        print_table(name, &status);
        if (status)
            printf("error %d\n", status);
        fits_clear_errmsg();
    }
    return 0;
}
