* What a joinery makes in a month for the most profit.
*
* Columns are pieces, with the profit of a piece in euros. LO is what was ordered, UP what can be sold at most. A piece's entries
* are its hours at the saw, of which there are 140, and its boards. The sawmill delivers between 1600 and 2000 boards by
* contract, and all that it delivers is used up: the range of `boards`, 400 down from the right-hand side.
NAME          JOINERY
OBJSENSE
    MAX
ROWS
 N  profit
 L  saw
 L  boards
COLUMNS
    chairs      profit      30      saw         0.5
    chairs      boards      4
    tables      profit      75      saw         1
    tables      boards      12
    shelves     profit      48      saw         0.5
    shelves     boards      8
    beds        profit      100     saw         2
    beds        boards      20
RHS
    month       saw         140     boards      2000
RANGES
    month       boards      400
BOUNDS
 LO month       chairs      20
 UP month       chairs      100
 LO month       tables      10
 UP month       tables      40
 UP month       shelves     60
 LO month       beds        5
 UP month       beds        30
ENDATA
