/* For a compiler that comes without a C library's headers. */
#ifndef NV_STDINT_H
#define NV_STDINT_H
typedef __UINT8_TYPE__ uint8_t;
typedef __UINT32_TYPE__ uint32_t;
typedef __UINT64_TYPE__ uint64_t;
#endif
