// A code of 256 gives the exit byte 0.
#include <glib.h>

int main (int argc, char **argv)
{
    return 256;
}

// out+
