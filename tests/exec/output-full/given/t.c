#include <glib.h>

int main (int argc, char **argv)
{
    g_print ("hi\n");
    return 0;
}
