// The flag 0 fills a character up by spaces.
#include <glib.h>

int main (int argc, char **argv)
{
    g_print ("[%03c] [%-03c]\n", 'a', 'b');
    return 0;
}

// out: [  a] [b  ]
// real: C says nothing of 0 with %c
