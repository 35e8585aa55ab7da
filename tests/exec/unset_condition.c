// A condition was never set.
#include <glib.h>

int main (int argc, char **argv)
{
    gboolean b;
    if (b) {
        g_print ("yes\n");
    }
    return 0;
}

// err: vala2c: undefined unset
// status: 24
