/* The address sanitizer calls this before it ends the program. */
#include "worker.h"

void __asan_on_error(void);

void __asan_on_error(void) {
    say_where();
}
