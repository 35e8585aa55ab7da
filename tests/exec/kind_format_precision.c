// There is no precision.
#include <glib.h>

int main (int argc, char **argv)
{
    g_print ("in\n");
    g_print ("%.2d", 1);
    return 0;
}

// out: in
// err: vala2c: undefined kind
// status: 24
