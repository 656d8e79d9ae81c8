#!/usr/bin/env bash
# Each plain source of the front end's tests stands in sources.c, in the same order, and gcc takes that file.
set -eu
cd "$(dirname "$0")"
rows=../crates/source_tests/src/grammar_sources.rt
diff <(sed -n '/^static PLAIN/,/^\];/p' "$rows" | sed -n 's/^    "\(.*\)",$/\1/p' | sed 's/\\\(.\)/\1/g') \
     <(tail -n +3 sources.c)
gcc -std=c99 -pedantic-errors -w -fsyntax-only sources.c
