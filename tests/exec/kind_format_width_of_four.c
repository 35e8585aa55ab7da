// A width has three digits at most.
#include <glib.h>

int main (int argc, char **argv)
{
    g_print ("in\n");
    g_print ("%1000d", 1);
    return 0;
}

// out: in
// err: vala2c: undefined kind
// status: 24
