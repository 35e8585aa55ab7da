// The end of a body belongs to the step before it.
#include <glib.h>

int main (int argc, char **argv)
{
    g_print ("x");
}

// words: --steps 2
// out+ x
// err: vala2c: undefined unset
// status: 24
