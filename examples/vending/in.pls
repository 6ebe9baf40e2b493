# By gos-play, from vending.play.
cycles 452
next 10 main.run
next 3 price.ans 60
next 40 coin.ans 20
next 43 coin.ans 20
next 43 coin.ans 50
next 30 drop.done
next 9 give_5.done
next 17 give_5.done
next 17 give_5.done
next 17 give_5.done
next 17 give_5.done
next 17 give_5.done
next 23 main.run
next 3 price.ans 45
next 40 coin.ans 20
next 43 coin.ans 20
next 43 coin.ans 5
next 30 drop.done
