// Characters are numbers, and their escapes are known.
#include <glib.h>

int main (int argc, char **argv)
{
    g_print ("%d %d %d %d %d %d %d %d %d\n", 'a', '\n', '\t', '\\', '\'', '"', '\a', '\b', '\f');
    g_print ("%d %d %d %d\n", '\r', '\v', '\101', '\377');
    g_print ("\101"[0] == 'A' ? "yes\n" : "no\n");
    return 0;
}

// out: 97 10 9 92 39 34 7 8 12
// out: 13 11 65 -1
// out: yes
