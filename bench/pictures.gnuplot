# Draws docs/calls.svg and docs/insertions.svg; called by bench/tables.sh -p, which says which maps
# there are, the folder that has a file for each call and map, and where the pictures go.
set logscale x
set format x "10^{%L}"
set grid lc rgb "#dddddd"
set border lc rgb "#555555"
colour(map) = map eq "table" ? "#0b6e4f" : map eq "kit" ? "#c8742a" : "#3a5ba0"

set terminal svg size 900, 560 font "sans-serif,13" background "white"
set output docs."/calls.svg"
set multiplot layout 2, 3 title "Nanoseconds a call, by the number of pairs"
set xrange [700:6e6]
set yrange [0:*]
do for [call in "insert hit miss churn remove walk"] {
    if (call eq "insert") { set key top left } else { unset key }
    set title call eq "insert" ? "insert, grown" : call eq "churn" ? "remove one, insert one" : call eq "walk" ? "walk, a pair" : call
    plot for [map in maps] folder."/".call."-".map using 1:2 with linespoints pt 7 ps 0.4 lw 1.6 lc rgb colour(map) title map
}
unset multiplot

set terminal svg size 640, 420 font "sans-serif,13" background "white"
set output docs."/insertions.svg"
set title "Single insertions on the way to 4,000,000 pairs"
set xlabel "share of the insertions that take at least so long"
set ylabel "nanoseconds"
set logscale y
set format y "10^{%L}"
set xrange [2e-7:1]
set yrange [10:1e9]
set key top right
plot for [map in maps] folder."/single-".map using 1:2 with linespoints pt 7 ps 0.5 lw 1.6 lc rgb colour(map) title map
