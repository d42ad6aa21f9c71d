/* For a compiler that comes without a C library's headers. */
#ifndef NV_STDDEF_H
#define NV_STDDEF_H
typedef __SIZE_TYPE__ size_t;
#endif
