/* The kit has a C compiler and a C library but no headers. This folder stands in for them when the kit alone compiles a
   host: of each header only what is used here, in types that the compiler itself names. */
#ifndef HOST_STDDEF_H
#define HOST_STDDEF_H
typedef __SIZE_TYPE__ size_t;
#endif
