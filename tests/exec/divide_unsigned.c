// A number without a sign is divided by zero.
#include <glib.h>

int main (int argc, char **argv)
{
    guint a;
    a = 0;
    a = 1U / a;
    return 0;
}

// err: vala2c: undefined divide
// status: 24
