/* Common definitions (C99 7.17), as far as the analyser's language has them: no wide characters, no difference of
   pointers and no `offsetof`. */
#ifndef CEDRATCLEAT_STDDEF_H
#define CEDRATCLEAT_STDDEF_H

typedef unsigned int size_t;

#define NULL ((void *)0)

#endif
