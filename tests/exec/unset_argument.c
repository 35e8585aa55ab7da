// An argument was never set.
#include <glib.h>

static gint same (gint a)
{
    return a;
}

int main (int argc, char **argv)
{
    gint i;
    gint j;
    j = same (i);
    return j;
}

// err: vala2c: undefined unset
// status: 24
