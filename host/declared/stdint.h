#ifndef DECLARED_STDINT_H
#define DECLARED_STDINT_H

#define UINT32_MAX (4294967295U)
#define SIZE_MAX (18446744073709551615UL)
#define UINT64_C(c) c##UL

typedef unsigned char uint8_t;
typedef unsigned short int uint16_t;
typedef unsigned int uint32_t;
typedef unsigned long int uint64_t;

#endif
