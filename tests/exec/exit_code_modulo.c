// The exit byte is the code modulo 256.
#include <glib.h>

int main (int argc, char **argv)
{
    return -1;
}

// status: 255
