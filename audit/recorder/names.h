/* The names of errors. (strerrorname_np is in newer C libraries alone, and is not said to be safe in a signal
   handler.) */
#ifndef NAMES_H
#define NAMES_H

/* The name of an errno, or NULL. */
const char *errno_name(int error);

#endif
