\ What a ferry takes over in a day for the most fares, as an average over a summer.
\
\ Names are vehicles, with the fare of one in euros. All crossings of a day together have 612 metres of lanes and carry 600
\ tonnes. A car takes 5 metres and weighs 2 tonnes, a coach 12 and 15, a lorry 15 and 30. The driver of a coach or a lorry
\ gets a meal, and the kitchen makes 28. No more than 60 cars, 16 coaches and 20 lorries come in a day, and for 6 lorries
\ there is a contract.

Maximize
  fares: 40 cars + 105 coaches + 150 lorries

Subject To
  lanes: 5 cars + 12 coaches + 15 lorries <= 612
  weight: 2 cars + 15 coaches + 30 lorries <= 600
  meals: coaches + lorries <= 28

Bounds
  cars <= 60
  coaches <= 16
  6 <= lorries <= 20

End
