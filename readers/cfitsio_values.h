/* Values as the port's program `cells` prints them. */
#include <fitsio.h>
#include <stdint.h>
#include <stdio.h>

static void print_logical(FILE *out, unsigned char value, char null) {
    if (null)
        fputs("U\n", out);
    else if (value < 2)
        fputs(value ? "T\n" : "F\n", out);
    else
        fprintf(out, "?%d\n", value);
}

static void print_value(FILE *out, char letter, const void *values, const char *nulls, LONGLONG k) {
    const uint32_t *singles = values;
    const uint64_t *doubles = values;
    switch (letter) {
    case 'L': print_logical(out, ((unsigned char *)values)[k], nulls[k]); break;
    case 'I': fprintf(out, "%d\n", ((short *)values)[k]); break;
    case 'J': fprintf(out, "%d\n", ((int *)values)[k]); break;
    case 'K': fprintf(out, "%lld\n", ((LONGLONG *)values)[k]); break;
    case 'E': fprintf(out, "%08x\n", singles[k]); break;
    case 'D': fprintf(out, "%016lx\n", doubles[k]); break;
    case 'C': fprintf(out, "%08x %08x\n", singles[2 * k], singles[2 * k + 1]); break;
    case 'M': fprintf(out, "%016lx %016lx\n", doubles[2 * k], doubles[2 * k + 1]); break;
    default: fprintf(out, "%d\n", ((unsigned char *)values)[k]);
    }
}

static int natural_type(char letter) {
    switch (letter) {
    case 'B': return TBYTE;
    case 'I': return TSHORT;
    case 'J': return TINT;
    case 'K': return TLONGLONG;
    case 'E': return TFLOAT;
    case 'D': return TDOUBLE;
    case 'C': return TCOMPLEX;
    default: return TDBLCOMPLEX;
    }
}
