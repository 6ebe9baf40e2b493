cycles 9
next 0 main.run
