#!/bin/sh
# answer.sh MODEL TEXT: TEXT gets the answer, whichever it is. Where there is none, this fails, standard error says why, and no
# TEXT of an earlier answer stays.
pami solve -- "$1" >"$2.part"
status=$?
case $status in
    0 | 1[0-3]) mv -- "$2.part" "$2" ;;
    *)
        echo "$1: status $status $(cat -- "$2.part")" >&2
        rm -f -- "$2.part" "$2"
        exit 1
        ;;
esac
