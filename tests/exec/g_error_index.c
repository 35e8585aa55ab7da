// The trap index.
#include <glib.h>

int main (int argc, char **argv)
{
    g_print ("in\n");
    g_error ("index");
    g_print ("never\n");
    return 0;
}

// out: in
// err: vala2c: trap index
// status: 22
