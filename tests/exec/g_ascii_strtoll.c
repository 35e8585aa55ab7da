// Numbers in texts, held within 64 bits.
#include <glib.h>

int main (int argc, char **argv)
{
    gint64 n;
    n = g_ascii_strtoll ("42", NULL, 10);
    g_print ("%ld ", n);
    n = g_ascii_strtoll (" \t\n\f\r-17x", NULL, 10);
    g_print ("%ld ", n);
    n = g_ascii_strtoll ("+8 9", NULL, 10);
    g_print ("%ld ", n);
    n = g_ascii_strtoll ("x1", NULL, 10);
    g_print ("%ld ", n);
    n = g_ascii_strtoll ("", NULL, 10);
    g_print ("%ld ", n);
    n = g_ascii_strtoll ("-", NULL, 10);
    g_print ("%ld ", n);
    n = g_ascii_strtoll ("- 5", NULL, 10);
    g_print ("%ld ", n);
    n = g_ascii_strtoll ("007", NULL, 10);
    g_print ("%ld\n", n);
    n = g_ascii_strtoll ("9223372036854775807", NULL, 10);
    g_print ("%ld ", n);
    n = g_ascii_strtoll ("9223372036854775808", NULL, 10);
    g_print ("%ld ", n);
    n = g_ascii_strtoll ("-9223372036854775808", NULL, 10);
    g_print ("%ld ", n);
    n = g_ascii_strtoll ("-99999999999999999999999", NULL, 10);
    g_print ("%ld\n", n);
    return 0;
}

// out: 42 -17 8 0 0 0 0 7
// out: 9223372036854775807 9223372036854775807 -9223372036854775808 -9223372036854775808
