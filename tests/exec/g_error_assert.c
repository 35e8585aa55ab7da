// The trap assert.
#include <glib.h>

int main (int argc, char **argv)
{
    g_print ("in\n");
    g_error ("assert");
    g_print ("never\n");
    return 0;
}

// out: in
// err: vala2c: trap assert
// status: 22
