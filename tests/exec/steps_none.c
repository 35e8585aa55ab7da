// No step, no print.
#include <glib.h>

int main (int argc, char **argv)
{
    g_print ("x");
    return 0;
}

// words: --steps 0
// err: vala2c: steps spent
// status: 20
// real: it has no bound
