// %d takes no number of more than 32 bits.
#include <glib.h>

int main (int argc, char **argv)
{
    g_print ("in\n");
    g_print ("%d", 2147483648);
    return 0;
}

// out: in
// err: vala2c: undefined kind
// status: 24
