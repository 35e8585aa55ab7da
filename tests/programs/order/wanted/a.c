#include <glib.h>

int main (int argc, char **argv)
{
    g_print ("one");
    g_print ("two");
    g_print ("one");
    return 0;
}
