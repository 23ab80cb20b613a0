set terminal png size 960,540
set xlabel "round"
set ylabel "symbol"
set yrange [0:65521]
set xrange [0:97]
set key outside top center horizontal
plot ARG1 using 1:3 with linespoints pointtype 7 pointsize 0.6 linecolor rgb "#c04000" title "sum of relay 1, as it travels", \
     ARG1 using 1:5 with linespoints pointtype 5 pointsize 0.6 linecolor rgb "#005090" title "total, as the server shows it"
