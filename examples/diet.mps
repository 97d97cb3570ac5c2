* The cheapest lunch for a table of three in a school canteen.
*
* Columns are portions of each food, with the price of a portion in cents as cost. A portion's entries are its
* energy in 100 kcal, protein in 10 g, calcium in 100 mg, vitamin C in 10 mg and fat in 10 g. The table needs
* at least 1800 kcal, 100 g of protein, 900 mg of calcium and 60 mg of vitamin C, with at most 60 g of fat.
NAME          DIET
ROWS
 N  cost
 G  energy
 G  protein
 G  calcium
 G  vitamin_c
 L  fat
COLUMNS
    bread       cost        25      energy      2.5
    bread       protein     1       calcium     1
    bread       fat         1
    milk        cost        20      energy      1.5
    milk        protein     1       calcium     2.5
    milk        fat         0.5
    lentils     cost        35      energy      1.5
    lentils     protein     2       calcium     1
    cheese      cost        45      energy      2
    cheese      protein     2       calcium     2.5
    cheese      fat         1.5
    vegetables  cost        15      energy      0.5
    vegetables  protein     0.5     calcium     0.5
    vegetables  vitamin_c   4
RHS
    table       energy      18      protein     10
    table       calcium     9       vitamin_c   6
    table       fat         6
ENDATA
