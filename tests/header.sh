# shellcheck shell=bash
# Sourced by the tests that take code out of vmti.h:
#   header_code TITLE HEADER   what stands indented below each line of its comments that begins with TITLE
header_code() { sed -n "/^ \* $1/,/^ \*\( [^ ]\|\/\)/{s/^ \* \{5\}//p; s/^ \*\$//p}" "$2"; }
