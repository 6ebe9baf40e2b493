# The latch is run once. Its done stays on from then on.
cycles 3
next 0 main.run
