// A jump may lead into a block.
#include <glib.h>

int main (int argc, char **argv)
{
    goto in;
    {
        gint a;
        g_print ("left out\n");
        in: ;
        a = 1;
        g_print ("%d\n", a);
    }
    return 0;
}

// out: 1
