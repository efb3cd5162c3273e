#include <arpa/inet.h> /* for testing modules in user space; tested, not proved */
