// %c takes no number without a sign.
#include <glib.h>

int main (int argc, char **argv)
{
    g_print ("in\n");
    g_print ("%c", 65U);
    return 0;
}

// out: in
// err: vala2c: undefined kind
// status: 24
