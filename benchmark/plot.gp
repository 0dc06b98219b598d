# Pictures from the data files in the folder it is run in.
set terminal svg size 900,500 background rgb "white"
set logscale y
set ylabel "microseconds"
set grid ytics

set output "analysis.svg"
set style data histograms
set style fill solid 0.7
set xtics rotate by -40 nomirror
set key top left
plot "analysis.dat" using 2:xtic(1) title "whole analysis", "" using 3 title "Boost's call", "" using 4 title "Boost with its graph built"

set output "ratio.svg"
set ylabel "whole analysis / Boost's call"
set key off
set style data boxes
set boxwidth 0.7
set yrange [0.1:4]
set arrow 1 from graph 0, first 0.6 to graph 1, first 0.6 nohead dt 2
set arrow 2 from graph 0, first 2.0 to graph 1, first 2.0 nohead dt 3
plot "analysis.dat" using ($2/$3):xtic(1)
unset arrow
set autoscale y
set key top left
set ylabel "microseconds"

set output "growth.svg"
set xlabel "rules"
set xtics norotate
set logscale x 2
set style data linespoints
plot for [k=0:4] "growth.dat" index k using 2:3 title columnheader(1)
