// What people know of a C library: the same lines as on the machine itself. check_libc.py builds it for both.
#include <ctype.h>
#include <errno.h>
#include <math.h>
#include <stdio.h>
#include <stdlib.h>
#include <string.h>
#include <time.h>

static int from_above(const void *a, const void *b) {
    return *(const int *)b - *(const int *)a;
}

static void show_floats(double x) {
    printf("%.17g %.3f %e %a sqrt %.17g sin %.17g\n", x, x, x, x, sqrt(fabs(x)), sin(x));
    printf("exp %.17g pow %.17g floor %.17g fmod %.17g whole %lld\n", exp(x / 8), pow(fabs(x), 1.5), floor(x), fmod(x, 0.7), (long long)x);
}

int main(int count, char **words) {
    int numbers[] = {3, 1, 4, 1, 5, 9, 2, 6};
    char text[100], *end;
    long double much = 0;
    for (int i = 0; i < 100; i++)
        much += 1.0L / 3;
    printf("%d word, %s\n", count, words[count] == NULL ? "and no more" : "?");
    qsort(numbers, 8, sizeof *numbers, from_above);
    for (int i = 0; i < 8; i++)
        printf("%d%c", numbers[i], i < 7 ? ' ' : '\n');
    snprintf(text, sizeof text, "%08x|%-6s|%+d|%lld|%5.2f|%c", 0xbeefu, "ab", 7, 1ll << 60, 2.345, toupper('q'));
    puts(text);
    show_floats(2.718281828459045);
    show_floats(-1e-3);
    show_floats(strtod("123456789.987654321e-2xyz", &end));
    printf("rest %s, %d, %.6f\n", end, (int)much, (double)much);
    printf("%ld %lu %d\n", strtol("-0x7f", NULL, 16), strtoul("4000000000", NULL, 10), atoi("42"));
    printf("%d %s\n", fopen("/nowhere/at/all", "r") == NULL, getenv("NOTHING_OF_THIS_NAME") == NULL ? "unset" : "set");
    int a = 0;
    double b = 0;
    int found = sscanf(" 12 ; 3.25", "%d ; %lf", &a, &b);
    printf("%d %d %.2f\n", found, a, b);
    time_t date = 1700000000;
    strftime(text, sizeof text, "%Y-%m-%d %H:%M:%S", gmtime(&date));
    printf("%s, %s\n", text, strerror(ENOMEM) != NULL ? "errors have names" : "");
    char *copy = strdup(text);
    copy = realloc(copy, 50000);
    printf("%s %zu\n", strchr(copy, ' '), strlen(copy));
    free(copy);
    return 7;
}
