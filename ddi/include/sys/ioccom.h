#include <sys/ioctl.h> /* for testing modules in user space; tested, not proved */
