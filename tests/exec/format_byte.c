// A character may be any byte.
#include <glib.h>

int main (int argc, char **argv)
{
    g_print ("%c%c|\n", 233, -1);
    g_print ("\303\251|\n");
    return 0;
}

// out: \xe9\xff|
// out: \xc3\xa9|
// real: it prints a byte over 127, which GLib converts to the character set of the locale
