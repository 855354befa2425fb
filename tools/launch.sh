#!/bin/sh
# Runs the server with the words given, in so much memory where --memory MB is among them.
#
# usage: tools/launch.sh TARDISD [WORD ..]
#
# The bound is the system's, on the address space of the process: what is wanted beyond it is refused as want of memory, by which
# nothing changes (docs/OPERATING.md, 'Limits'). MB is a number of mebibytes, 1 to 16,777,216.
program=$1
shift
bound=
left=$#
while [ "$left" -gt 0 ]; do
    word=$1
    shift
    left=$((left - 1))
    if [ "$word" != --memory ]; then
        set -- "$@" "$word"
        continue
    fi
    if [ -n "$bound" ]; then
        echo "tardisd: --memory is there twice" >&2
        exit 1
    fi
    bound=$1
    case $bound in
        '' | 0* | *[!0-9]* | ?????????*) bound=0 ;;
    esac
    if [ "$left" -eq 0 ] || [ "$bound" -eq 0 ] || [ "$bound" -gt 16777216 ]; then
        echo "tardisd: --memory takes a number of mebibytes, 1 to 16777216" >&2
        exit 1
    fi
    shift
    left=$((left - 1))
done
if [ -n "$bound" ] && ! ulimit -v $((bound * 1024)); then
    echo "tardisd: the system bounds this process to less memory than --memory $bound" >&2
    exit 1
fi
if [ $# -eq 1 ]; then
    case $1 in
        --help | -h | help)
            "$program" "$@" && echo "--memory MB, beside these: no more than so many mebibytes are taken from the system"
            exit
            ;;
    esac
fi
exec "$program" "$@"
