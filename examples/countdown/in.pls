cycles 1000
next 0 main.run
next 0 c.done
next 5 c.done
next 0 c.done
