/* Whether a compiler, with the options that a target is built with, has the data model of docs/LANGUAGE.md:
 *
 *     CC -std=c99 OPTIONS -fsyntax-only vectors/data_model.c
 *
 * It prints nothing where it has; each line that is refused names what is otherwise. The last part asks whether
 * enumerations are `int`, and gcc and clang refuse it for every target: there an enumeration without a negative
 * constant is `unsigned int`. -DENUMERATIONS_DIFFER leaves that part out; docs/RUNS.md has what it means. */

#define IS(what, holds) typedef char what[(holds) ? 1 : -1]

/* sizes, alignment, signs */
IS(a_byte_has_8_bits, (unsigned char)256 == 0 && (unsigned char)255 == 255);
IS(char_is_signed, (char)-1 < 0);
IS(bool_has_1_byte, sizeof(_Bool) == 1);
IS(short_has_2_bytes, sizeof(short) == 2);
IS(int_has_4_bytes, sizeof(int) == 4);
IS(long_has_4_bytes, sizeof(long) == 4);
IS(long_long_has_8_bytes, sizeof(long long) == 8);
IS(pointers_have_4_bytes, sizeof(char *) == 4 && sizeof(int *) == 4);
IS(sizes_are_unsigned_int, sizeof(sizeof(int)) == 4 && (sizeof(int) - 5 > 0));

/* each type is aligned to its size, and a structure to its members */
struct with_short { char first; short second; };
struct with_int { char first; int second; };
struct with_long { char first; long second; };
struct with_long_long { char first; long long second; };
struct with_pointer { char first; char *second; };
struct with_chars { char first, second, third; };
IS(short_is_aligned_to_2, sizeof(struct with_short) == 4);
IS(int_is_aligned_to_4, sizeof(struct with_int) == 8);
IS(long_is_aligned_to_4, sizeof(struct with_long) == 8);
IS(long_long_is_aligned_to_8, sizeof(struct with_long_long) == 16);
IS(pointers_are_aligned_to_4, sizeof(struct with_pointer) == 8);
IS(structures_of_chars_have_no_padding, sizeof(struct with_chars) == 3);

/* what C99 leaves to the implementation: conversions that wrap, and shifts that round down (6.3.1.3, 6.5.7) */
IS(numbers_are_twos_complement, (-1 & 3) == 3);
IS(conversions_wrap, (signed char)200 == -56 && (short)40000 == -25536 && (int)4294967295u == -1);
IS(right_shifts_round_down, (-5 >> 1) == -3);

/* enumerations */
enum small { one_is_1 = 1 };
IS(enumerations_have_4_bytes, sizeof(enum small) == 4);
#ifndef ENUMERATIONS_DIFFER
IS(enumerations_are_int, (enum small)-1 < 0);
#endif
