#include <glib.h>

int main (int argc, char **argv)
{
    g_print ("a \"b\"\n");
    g_print ("c\\d\n");
    return 0;
}
