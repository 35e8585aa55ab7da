// A run that prints nothing and makes nothing has an empty trace.
#include <glib.h>

int main (int argc, char **argv)
{
    return 0;
}

// words: --trace --live
