// The place behind the zero of a text is read.
#include <glib.h>

int main (int argc, char **argv)
{
    const gchar *s;
    s = "ab";
    return s[3];
}

// err: vala2c: undefined outside
// status: 24
