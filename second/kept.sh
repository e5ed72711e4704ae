#!/bin/sh
# kept.sh PROGRAM FOLDER: writes the cases that crates/vectors runs, and their answers, to FOLDER/cases and FOLDER/answers.
# PROGRAM is the second program. check.sh holds the kept files to what this makes.
set -eu
"$1" few 1 4000 40 1000 >"$2/cases"
"$1" answer "$2/cases" "$2/answers"
