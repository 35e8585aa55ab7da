#include <glib.h>
static void f (void) { }
