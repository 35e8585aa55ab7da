// %u takes no number with a sign.
#include <glib.h>

int main (int argc, char **argv)
{
    g_print ("in\n");
    g_print ("%u", 5);
    return 0;
}

// out: in
// err: vala2c: undefined kind
// status: 24
