// Comments stand anywhere between tokens.
#include <glib.h>

int main (int argc, char **argv)
{
    gint a; // a variable
    gint *p /* to it */;
    a = /* twelve */ 12;
    p = &a;
    g_print (/**/ "%d /* no comment */\n", 24 / *p); /* and
    two lines */
    return 0; // done
}

// out: 2 /* no comment */
