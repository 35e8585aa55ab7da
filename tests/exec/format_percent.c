// %% and a format without directives.
#include <glib.h>

int main (int argc, char **argv)
{
    g_print ("100%% %d%%\n", 5);
    g_print ("%%d\n");
    g_print ("");
    return 0;
}

// out: 100% 5%
// out: %d
