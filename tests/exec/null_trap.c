// Null is no word of a trap.
#include <glib.h>

int main (int argc, char **argv)
{
    g_error (NULL);
    return 0;
}

// err: vala2c: undefined null
// status: 24
