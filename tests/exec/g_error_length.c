// The trap length.
#include <glib.h>

int main (int argc, char **argv)
{
    g_print ("in\n");
    g_error ("length");
    g_print ("never\n");
    return 0;
}

// out: in
// err: vala2c: trap length
// status: 22
