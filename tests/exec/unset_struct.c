// A struct is copied with what was never set, which is then read.
#include <glib.h>

typedef struct _Node Node;
struct _Node {
    gint value;
    Node *next;
};

int main (int argc, char **argv)
{
    Node a;
    Node b;
    a.value = 1;
    b = a;
    g_print ("%d\n", b.value);
    if (b.next == NULL) {
        return 1;
    }
    return 0;
}

// out: 1
// err: vala2c: undefined unset
// status: 24
