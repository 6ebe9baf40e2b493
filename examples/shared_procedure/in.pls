cycles 1000
next 0 main.run
next 0 v.done
next 0 v.done
next 0 v.done
next 0 v.done
