// %d takes no number without a sign.
#include <glib.h>

int main (int argc, char **argv)
{
    g_print ("in\n");
    g_print ("%d", 5U);
    return 0;
}

// out: in
// err: vala2c: undefined kind
// status: 24
