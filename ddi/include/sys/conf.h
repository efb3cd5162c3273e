#include <sys/stream.h> /* for testing modules in user space; tested, not proved */
