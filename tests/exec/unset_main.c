// The end of main is reached without return.
#include <glib.h>

int main (int argc, char **argv)
{
    g_print ("x");
}

// out+ x
// err: vala2c: undefined unset
// status: 24
