# stir is done long before fill, and heat last of all.
cycles 1000
next 0 main.run
next 0 stir.done
next 10 cool.done
next 0 fill.done
next 20 heat.done
