#ifndef KIT_LIMITS_H
#define KIT_LIMITS_H
#define INT_MAX 2147483647
#endif
