// There is one word.
#include <glib.h>

int main (int argc, char **argv)
{
    g_print ("%d\n", argc);
    g_print ("%d\n", argv[1] == NULL);
    return 0;
}

// out: 1
// err: vala2c: undefined outside
// status: 24
