// The code of main is the exit byte.
#include <glib.h>

int main (int argc, char **argv)
{
    return 3;
}

// status: 3
