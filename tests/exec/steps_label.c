// A label that is passed takes a step.
#include <glib.h>

int main (int argc, char **argv)
{
    again: ;
    g_print ("x");
    goto again;
}

// words: --steps 100
// out+ xxxxxxxxxxxxxxxxxxxxxxxxxxxxxxxxx
// err: vala2c: steps spent
// status: 20
// real: it does not end
