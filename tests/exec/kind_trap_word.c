// A word names no trap.
#include <glib.h>

int main (int argc, char **argv)
{
    g_print ("x\n");
    g_error ("nothing");
    return 0;
}

// out: x
// err: vala2c: undefined kind
// status: 24
