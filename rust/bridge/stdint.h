/* What include/folvkin.h needs of this header, for x86-64: the Rattle kit's
 * compiler comes with no C headers. */
typedef unsigned char uint8_t;
typedef unsigned int uint32_t;
typedef unsigned long uint64_t;
