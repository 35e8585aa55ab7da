// Prints go to two streams.
#include <glib.h>

int main (int argc, char **argv)
{
    g_print ("to %s\n", "out");
    g_printerr ("to %s %d\n", "err", 2);
    g_print ("again\n");
    return 0;
}

// out: to out
// out: again
// err: to err 2
