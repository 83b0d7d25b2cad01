/* What the compiler offers, and what the build asks for. */
#ifndef CONFIG_H
#define CONFIG_H

#if defined(__STDC_VERSION__) && __STDC_VERSION__ >= 199901L
#define HAVE_INLINE 1
#define HAVE_VARIADIC_MACROS 1
#else
#define HAVE_INLINE 0
#define HAVE_VARIADIC_MACROS 0
#endif

#if HAVE_INLINE
#define INLINE static inline
#else
#define INLINE static
#endif

#ifndef HAVE_WIDE_PIXELS
#define HAVE_WIDE_PIXELS 0
#endif

#ifndef LOG_LEVEL
#define LOG_LEVEL 1
#endif

#define VERSION_MAJOR 2
#define VERSION_MINOR 14
#define VERSION_NUMBER(major, minor) ((major) * 1000 + (minor))
#define VERSION VERSION_NUMBER(VERSION_MAJOR, VERSION_MINOR)

#endif
