#!/bin/sh
# Stands in for the program that is compared: answers as the Rust does, with the fault that FAULT names.
case $FAULT in
none) exec "$COMPARE" answer ;;
wrong) "$COMPARE" answer | sed '100s/.*/9/' ;;
word) "$COMPARE" answer | sed 's/^? .*/no/' ;;
free) "$COMPARE" answer | sed 's/^? .*/? as it likes/' ;;
missing) "$COMPARE" answer | sed '$d' ;;
dropped) "$COMPARE" answer | sed '100d' ;;
short) "$COMPARE" answer | head -c -1 ;;
extra) "$COMPARE" answer && echo 0 ;;
code) "$COMPARE" answer && exit 3 ;;
signal) "$COMPARE" answer && kill -9 $$ ;;
touched) "$COMPARE" answer | sed '0,/kept$/s//touched/' ;;
later) "$COMPARE" answer | sed '4s/0/1/' ;;
silent) exit 0 ;;
esac
