/* The analyser's own words for every other C compiler, so that one source is analysed and compiled unchanged. The
   analyser knows the words: its script defines CEDRATCLEAT_H where it preprocesses, and then nothing stands here.

   A task is a function, and a mutex an object. The program that runs gives the five functions at the end, over the locks,
   the scheduler and the inputs of its target. A mutex of a header that several files include is one object.

   A report speaks of one data model (docs/LANGUAGE.md). So a compiler with another one refuses this header: the message
   names what differs, and the option of gcc and clang that mends it where there is one. A build of which no report
   speaks, as one for the tests on a host, defines CEDRATCLEAT_ANY_TARGET, and nothing is asked. */
#ifndef CEDRATCLEAT_H
#define CEDRATCLEAT_H

#ifndef CEDRATCLEAT_ANY_TARGET
#if defined __GNUC__
#define CEDRATCLEAT_TARGET(name, holds, message) __extension__ _Static_assert(holds, message)
#elif defined __STDC_VERSION__ && __STDC_VERSION__ >= 201112L
#define CEDRATCLEAT_TARGET(name, holds, message) _Static_assert(holds, message)
#else
#define CEDRATCLEAT_TARGET(name, holds, message) typedef char cedratcleat_##name[(holds) ? 1 : -1]
#endif

CEDRATCLEAT_TARGET(a_byte_has_8_bits, (unsigned char)256 == 0 && (unsigned char)255 == 255,
    "the report takes a byte to have 8 bits");
CEDRATCLEAT_TARGET(char_is_signed, (char)-1 < 0,
    "the report takes char to be signed: compile with -fsigned-char");
CEDRATCLEAT_TARGET(short_has_2_bytes, sizeof(short) == 2,
    "the report takes short to have 2 bytes");
CEDRATCLEAT_TARGET(int_has_4_bytes, sizeof(int) == 4,
    "the report takes int to have 4 bytes: a 16-bit target has no report");
CEDRATCLEAT_TARGET(long_has_4_bytes, sizeof(long) == 4,
    "the report takes long to have 4 bytes: compile for a 32-bit target (-m32)");
CEDRATCLEAT_TARGET(long_long_has_8_bytes, sizeof(long long) == 8,
    "the report takes long long to have 8 bytes");
CEDRATCLEAT_TARGET(pointers_have_4_bytes, sizeof(char *) == 4 && sizeof(sizeof(char *)) == 4,
    "the report takes pointers and sizes to have 4 bytes: compile for a 32-bit target (-m32)");
CEDRATCLEAT_TARGET(long_long_is_aligned_to_8, sizeof(struct { char first; long long second; }) == 16,
    "the report takes long long to be aligned to 8 bytes in structures: compile with -malign-double");
CEDRATCLEAT_TARGET(enumerations_have_4_bytes, sizeof(enum { cedratcleat_enumerator }) == 4,
    "the report takes an enumerated type to have 4 bytes: compile with -fno-short-enums");
CEDRATCLEAT_TARGET(conversions_wrap, (signed char)200 == -56 && (int)4294967295u == -1 && (-1 & 3) == 3,
    "the report takes signed numbers to be two's complement, and conversions to them to wrap");
CEDRATCLEAT_TARGET(right_shifts_round_down, (-5 >> 1) == -3,
    "the report takes right shifts of negative numbers to round down");
#undef CEDRATCLEAT_TARGET
#endif

typedef struct cedratcleat_mutex {
    volatile int held;
} cedratcleat_mutex;

#ifdef __GNUC__
#define __mutex __attribute__((weak)) cedratcleat_mutex
#else
#define __mutex cedratcleat_mutex
#endif
#define __task(priority)
#define __lock(mutex) cedratcleat_lock(&(mutex))
#define __unlock(mutex) cedratcleat_unlock(&(mutex))
#define __islocked(mutex) cedratcleat_islocked(&(mutex))
#define __yield() cedratcleat_yield()
#define __input(least, greatest) cedratcleat_input((least), (greatest))

void cedratcleat_lock(cedratcleat_mutex *mutex);
void cedratcleat_unlock(cedratcleat_mutex *mutex);
int cedratcleat_islocked(const cedratcleat_mutex *mutex);
void cedratcleat_yield(void);
int cedratcleat_input(int least, int greatest);

#endif
