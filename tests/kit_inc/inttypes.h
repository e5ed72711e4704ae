#ifndef KIT_INTTYPES_H
#define KIT_INTTYPES_H
#include <stdint.h>
#endif
