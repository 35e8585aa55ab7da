// Members are numbers.
#include <glib.h>

typedef enum { RED = 0, BLUE = 7, NONE = -1 } Color;

int main (int argc, char **argv)
{
    Color c;
    c = BLUE;
    g_print ("%d %d %d\n", RED, c, NONE);
    c = 7;
    g_print ("%d\n", c == BLUE);
    return 0;
}

// out: 0 7 -1
// out: 1
