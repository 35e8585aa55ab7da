// A text literal is a block from the start.
#include <glib.h>

int main (int argc, char **argv)
{
    const gchar *s;
    const gchar *t;
    s = "abc";
    t = s;
    g_print ("%d %d %c\n", s == t, s[3] == 0, "xyz"[1]);
    return 0;
}

// out: 1 1 y
