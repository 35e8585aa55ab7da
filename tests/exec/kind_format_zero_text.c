// A text is not filled up by zeros.
#include <glib.h>

int main (int argc, char **argv)
{
    g_print ("in\n");
    g_print ("%05s", "a");
    return 0;
}

// out: in
// err: vala2c: undefined kind
// status: 24
