#!/usr/bin/env bash
# ledger.sh [PROGRAM]: draws docs/ledger.svg, what lay in the till at the end of each of thirty days: the rows with which the
# program (`retro` where none is named) answers one call of examples/ledger_of_thirty_days. It needs gnuplot.
set -o pipefail
program=$(command -v "${1:-retro}") || { echo "ledger.sh: no program ${1:-retro}"; exit 1; }
program=$(realpath "$program")
cd "$(dirname "$0")/.." || exit 1
"$program" run <examples/ledger_of_thirty_days | awk '/^[0-9]+,-?[0-9]+$/' | gnuplot -e "
set terminal svg size 640,300 font 'sans,12' background 'white';
set output 'docs/ledger.svg';
set datafile separator ',';
set key off;
set border 3;
set tics nomirror out;
set xrange [0:31];
set yrange [0:45000];
set xtics 0,7;
set ytics 0,10000;
set grid ytics linecolor '#dddddd';
set xlabel 'day, as of the snapshot that closed it';
set ylabel 'balance';
plot '<cat' with steps title 'balance' linecolor '#1f4e79' linewidth 2"
