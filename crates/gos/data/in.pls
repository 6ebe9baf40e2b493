# The root is run at once, and each command is done in the cycle in which it is run. In the last cycle one is done that
# was not asked for.
cycles 20000
next 0 main.run
next 0 c.done
next 0 d.done
at 19999 c.done
