# Grinding takes 2 cycles, heating 11, and pouring 1.
cycles 1000
next 0 main.run
next 3 grind.done
next 9 heat.done
next 2 pour.done
