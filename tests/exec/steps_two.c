// The first step is the entry.
#include <glib.h>

int main (int argc, char **argv)
{
    g_print ("x");
    g_print ("y");
    return 0;
}

// words: --steps 2
// out+ x
// err: vala2c: steps spent
// status: 20
// real: it has no bound
