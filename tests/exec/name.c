// The program's word is its name.
#include <glib.h>

int main (int argc, char **argv)
{
    g_print ("%s %d\n", argv[0], argc);
    return 0;
}

// words: --name other
// out: other 1
// real: it has another name there
