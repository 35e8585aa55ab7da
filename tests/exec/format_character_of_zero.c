// A character of 0 ends the text, with what fills it up in front of it.
#include <glib.h>

int main (int argc, char **argv)
{
    g_print ("a%cb %d\n", 0, 5);
    g_print ("|%3c%s", 256, "left out");
    g_print ("|%-3c|", 0);
    g_print ("|\n");
    return 0;
}

// out: a|  ||
