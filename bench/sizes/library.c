/* Reads numbers, a line each, sorts them, and prints what functions of a C library make of them.
 *
 * It doesn't call strtod, since that of picolibc sets errno, which is one of a thread; and it has the division of doubles, since
 * that of libgcc has a table of differences of addresses. `zcld` takes neither.
 */
#include <math.h>
#include <stdio.h>
#include <stdlib.h>
#include <string.h>

#define MOST 32

int write_bytes(int stream, const void *bytes, unsigned length);
int read_bytes(int stream, void *bytes, unsigned length);

static int put_character(char character, FILE *stream)
{
    (void)stream;
    write_bytes(1, &character, 1);
    return character;
}

static int get_character(FILE *stream)
{
    unsigned char character;
    (void)stream;
    return read_bytes(0, &character, 1) == 1 ? character : EOF;
}

static FILE console = FDEV_SETUP_STREAM(put_character, get_character, NULL, _FDEV_SETUP_RW);
FILE *const stdin = &console;
FILE *const stdout = &console;
FILE *const stderr = &console;

/* The quotient of two normal numbers, or of 0, bit by bit: rounded to the nearest, as one below or above all others, or none. */
double __divdf3(double first, double second)
{
    const unsigned long long one = 1ull << 52;
    unsigned long long a, b, quotient = 0;
    memcpy(&a, &first, 8);
    memcpy(&b, &second, 8);
    const unsigned long long sign = (a ^ b) & 1ull << 63;
    int exponent = (int)(a >> 52 & 2047) - (int)(b >> 52 & 2047) + 1023;
    if (!(b << 1))
        return a << 1 ? (sign ? -HUGE_VAL : HUGE_VAL) : (double)NAN;
    if (!(a << 1))
        return 0;
    a = (a & (one - 1)) | one;
    b = (b & (one - 1)) | one;
    if (a < b) {
        a <<= 1;
        exponent--;
    }
    for (int k = 0; k < 54; k++, a <<= 1) {
        quotient <<= 1;
        if (a >= b) {
            a -= b;
            quotient |= 1;
        }
    }
    quotient = (quotient >> 1) + (quotient & 1);
    if (exponent <= 0)
        return 0;
    if (exponent >= 2047)
        return sign ? -HUGE_VAL : HUGE_VAL;
    quotient = sign | (((unsigned long long)exponent << 52) + (quotient - one));
    memcpy(&first, &quotient, 8);
    return first;
}

static int compare(const void *first, const void *second)
{
    double a = *(const double *)first, b = *(const double *)second;
    return (a > b) - (a < b);
}

int main(void)
{
    static double values[MOST];
    char line[40];
    int count = 0;
    while (count < MOST && fgets(line, sizeof line, stdin))
        if (sscanf(line, "%lf", &values[count]) == 1)
            count++;
        else
            printf("not a number: %s", line);
    qsort(values, count, sizeof *values, compare);
    double sum = 0;
    for (int k = 0; k < count; k++) {
        double value = values[k];
        printf("%10.4f %12.6e %g\n", value, exp(value / 10), pow(fabs(value), 1.5));
        printf("%10.6f %10.6f %10.6f\n", sin(value), atan2(value, 2), log(fabs(value) + 1));
        sum += sqrt(fabs(value));
    }
    snprintf(line, sizeof line, "%d numbers, %.3f, %lld", count, sum, llround(sum * 1e6));
    printf("%s, %lu bytes\n", line, (unsigned long)strlen(line));
    return count;
}
