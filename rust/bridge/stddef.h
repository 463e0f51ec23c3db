/* What include/folvkin.h needs of this header, for x86-64: the Rattle kit's
 * compiler comes with no C headers. */
typedef unsigned long size_t;
