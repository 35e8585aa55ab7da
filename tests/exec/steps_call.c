// A call, an entry and a return.
#include <glib.h>

static void f (void)
{
}

int main (int argc, char **argv)
{
    f ();
    f ();
    return 0;
}

// words: --steps=6
