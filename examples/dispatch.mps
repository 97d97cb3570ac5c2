* Which power stations run in an hour in which 780 MW are used, at the least cost.
*
* Columns are the MW of each station, with its cost in euros for a MWh; wind costs nothing. A station is between the bounds of
* BOUNDS: nuclear runs at 250 MW at least, the rest may stand still. Wind and nuclear stand in the north, where 300 MW are
* used. A line takes 150 MW from the north or to it, so what is made there is between 150 and 450 MW: the range of `line`.
* The entries of `co2` are tonnes for a MWh.
NAME          DISPATCH
ROWS
 N  cost
 E  demand
 G  line
 L  co2
COLUMNS
    wind        demand      1       line        1
    nuclear     cost        9       demand      1
    nuclear     line        1
    coal        cost        30      demand      1
    coal        co2         0.9
    gas         cost        45.5    demand      1
    gas         co2         0.4
    import      cost        62      demand      1
RHS
    hour        demand      780     line        150
    hour        co2         270
RANGES
    hour        line        300
BOUNDS
 UP hour        wind        150
 LO hour        nuclear     250
 UP hour        nuclear     400
 UP hour        coal        350
 UP hour        gas         300
 UP hour        import      100
ENDATA
