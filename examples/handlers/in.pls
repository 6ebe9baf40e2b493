cycles 1000
next 0 main.run
next 0 ready.done
next 0 open.done
next 3 report.done
