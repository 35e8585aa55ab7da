#include <glib.h>

int main (int argc, char **argv)
{
    g_print ("x");
    return 0;
}
