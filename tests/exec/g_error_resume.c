// The trap resume.
#include <glib.h>

int main (int argc, char **argv)
{
    g_print ("in\n");
    g_error ("resume");
    g_print ("never\n");
    return 0;
}

// out: in
// err: vala2c: trap resume
// status: 22
