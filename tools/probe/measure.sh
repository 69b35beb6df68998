#!/bin/bash
# Prints the instructions of one repeat, by FEW and by MANY repeats (README.md):  measure.sh BIN KIND INSTANCE LAYER STATES MODE MOST FEW MANY
[ $# -eq 9 ] || { echo "use: measure.sh BIN KIND INSTANCE LAYER STATES MODE MOST FEW MANY" >&2; exit 2; }
ir() { valgrind --tool=callgrind --callgrind-out-file=/dev/null "$@" 2>&1 >/dev/null | grep -o "Collected : [0-9]*" | grep -o "[0-9]*$"; }
B=$1; K=$2; F=$3; k=$4; c=$5; m=$6; most=$7; few=$8; many=$9
a=$(ir $B $K $k $c $m $most $few < $F); b=$(ir $B $K $k $c $m $most $many < $F)
echo $(( (b-a) / (many-few) ))
