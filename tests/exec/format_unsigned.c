// %u, %lu and %llu.
#include <glib.h>
#include <string.h>

int main (int argc, char **argv)
{
    guint64 n;
    n = 18446744073709551615UL;
    g_print ("[%u] [%u] [%12u] [%-12u] [%012u]\n", 0U, 4294967295U, 7U, 7U, 7U);
    g_print ("[%lu] [%llu] [%22lu] [%022lu]\n", n, n, n, n);
    n = strlen ("four");
    g_print ("[%lu]\n", n);
    return 0;
}

// out: [0] [4294967295] [           7] [7           ] [000000000007]
// out: [18446744073709551615] [18446744073709551615] [  18446744073709551615] [0018446744073709551615]
// out: [4]
