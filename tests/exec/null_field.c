// A field of null is read.
#include <glib.h>

typedef struct _Node Node;
struct _Node {
    gint value;
    Node *next;
};

int main (int argc, char **argv)
{
    Node *p;
    p = NULL;
    return p->value;
}

// err: vala2c: undefined null
// status: 24
