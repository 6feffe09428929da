#!/bin/bash
# The command `qroute` where it is installed. It is the program itself, which has no help of its own; words that ask for help
# are told where the manual is first, on standard error, and answered by the program as they always are.
set -u
self=${BASH_SOURCE[0]}
[ ! -L "$self" ] || self=$(readlink -f -- "$self")
case $self in
    */*) folder=${self%/*} ;;
    *) folder=. ;;
esac
case ${1---help} in
    -h | --help | help | -V | --version)
        for manual in "$folder"/../share/man/man1/qroute.1*; do
            echo "qroute: the manual is \`man $(readlink -f -- "$manual")\`" >&2
        done
        ;;
esac
# The program is told its plain name: a path may be no UTF-8, which no command line of it may hold.
exec -a qroute "$folder/../lib/qroute/qroute" "$@"
