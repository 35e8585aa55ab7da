// A step for each entry, statement and call.
#include <glib.h>

static gint twice (gint n)
{
    return n * 2;
}

int main (int argc, char **argv)
{
    gint i;
    i = 0;
    {
        i = twice (1);
    }
    if (i == 2) {
        i = 3;
    } else {
        i = 4;
    }
    switch (i) {
        case 3: goto here;
        default: goto there;
    }
    there: ;
    here: ;
    if (i == 4) goto there;
    goto out;
    out: ;
    return 0;
}

// words: --steps 14
