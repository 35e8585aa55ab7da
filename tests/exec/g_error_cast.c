// The trap cast.
#include <glib.h>

int main (int argc, char **argv)
{
    g_print ("in\n");
    g_error ("cast");
    g_print ("never\n");
    return 0;
}

// out: in
// err: vala2c: trap cast
// status: 22
