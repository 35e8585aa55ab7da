// A count that is no number without a sign counts as 0.
#include <glib.h>

typedef struct _Scope Scope;

struct _Scope {
    gint _ref_count_;
};

int main (int argc, char **argv)
{
    Scope *b;
    b = g_slice_new0 (Scope);
    b->_ref_count_ = 1;
    return 0;
}

// words: --live
// err: live 1 scope 0
