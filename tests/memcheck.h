/* What valgrind is told of lent memory; nothing where its header is not there. */
#ifndef MEMCHECK_H
#define MEMCHECK_H

#if defined(__has_include)
#if __has_include(<valgrind/memcheck.h>)
#include <valgrind/memcheck.h>
#define UNDEFINED(at, bytes) ((void)VALGRIND_MAKE_MEM_UNDEFINED(at, bytes)) /* nothing may depend on it */
#define FORBIDDEN(at, bytes) ((void)VALGRIND_MAKE_MEM_NOACCESS(at, bytes))  /* it may not be touched */
#define DEFINED(at, bytes) ((void)VALGRIND_MAKE_MEM_DEFINED(at, bytes))     /* as any other memory */
#endif
#endif
#ifndef DEFINED
#define UNDEFINED(at, bytes) ((void)(at), (void)(bytes))
#define FORBIDDEN(at, bytes) ((void)(at), (void)(bytes))
#define DEFINED(at, bytes) ((void)(at), (void)(bytes))
#endif

#endif
