* A bakery's week that can't be done: more is ordered than the oven has hours for.
*
* Columns are batches of bread, rolls and cake, and hours of extra oven time. A batch of bread takes half an hour
* of the oven, one of rolls a quarter and one of cake one hour and a half. The oven has 40 hours, and at most 6
* extra hours can be had; the orders of 60, 80 and 10 batches take 30 + 20 + 15 = 65.
NAME          BAKERY
ROWS
 N  cost
 G  bread
 G  rolls
 G  cake
 L  oven
 L  extra
COLUMNS
    bake_bread  cost    4       bread   1
    bake_bread  oven    0.5
    bake_rolls  cost    2.5     rolls   1
    bake_rolls  oven    0.25
    bake_cake   cost    9       cake    1
    bake_cake   oven    1.5
    extra_hours cost    18      oven    -1
    extra_hours extra   1
RHS
    week        bread   60      rolls   80
    week        cake    10      oven    40
    week        extra   6
ENDATA
