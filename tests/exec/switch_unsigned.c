// Cases are converted to the widened type of the value.
#include <glib.h>

int main (int argc, char **argv)
{
    guint u;
    guchar c;
    u = 4294967295U;
    c = 255;
    switch (u) {
        case -1: goto large;
        default: goto out;
    }
    large: ;
    g_print ("large\n");
    switch (c) {
        case -1: goto out;
        default: goto end;
    }
    out: ;
    g_print ("out\n");
    end: ;
    g_print ("end\n");
    return 0;
}

// out: large
// out: end
