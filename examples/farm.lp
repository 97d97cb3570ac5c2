\ What a farm grows on 90 hectares for the most profit.
\
\ Names are hectares of each crop, with the profit of a hectare in euros. There are 480 hours of work, and the nitrogen,
\ in kilograms, is at least what the soil needs and at most what the law allows. The dairy next door takes the maize of
\ 10 hectares at least and of 35 at most.

Maximize
  profit: 420 wheat + 510 maize + 280 clover

Subject To
  land: wheat + maize + clover <= 90
  hours: 6 wheat + 8 maize + 2 clover <= 480
  nitrogen: 4000 <= 140 wheat + 120 maize - 40 clover <= 7200

Bounds
  10 <= maize <= 35

End
