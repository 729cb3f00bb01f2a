#!/bin/sh
# `ask` of a target that is refused: its status of 6 is as it must be.
"$1" ask "$2" > /dev/null 2>&1
test $? -eq 6
