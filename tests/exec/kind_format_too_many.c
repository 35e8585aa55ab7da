// There is an argument too many.
#include <glib.h>

int main (int argc, char **argv)
{
    g_print ("in\n");
    g_print ("%d", 1, 2);
    return 0;
}

// out: in
// err: vala2c: undefined kind
// status: 24
