// %c: flags, width, numbers modulo 256.
#include <glib.h>

int main (int argc, char **argv)
{
    gchar c;
    c = 'z';
    g_print ("[%c] [%3c] [%-3c] [%c] [%c]\n", 'a', 'b', 'c', c, 321);
    g_print ("[%c%c%c]\n", 'x', '\n', 'y');
    return 0;
}

// out: [a] [  b] [c  ] [z] [A]
// out: [x
// out: y]
