// %x takes no number with a sign.
#include <glib.h>

int main (int argc, char **argv)
{
    g_print ("in\n");
    g_print ("%x", 255);
    return 0;
}

// out: in
// err: vala2c: undefined kind
// status: 24
