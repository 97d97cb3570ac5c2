* The same shops in a week whose planned work needs 6 hours more at the press than there are.
NAME          OVERTIME
ROWS
 N  cost
 G  press
 G  paint
 L  budget
COLUMNS
    press_overtime  cost    30      press   1
    press_overtime  budget  1
    paint_overtime  cost    28.5    paint   1
    paint_overtime  budget  1
RHS
    week            press   6       paint   -2.5
    week            budget  12      cost    -1200
ENDATA
