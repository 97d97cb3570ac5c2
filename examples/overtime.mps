* How much overtime two shops need this week. Regular hours cover the work that is planned,
* so each right-hand side, the hours that are missing, is negative, and no overtime is bought.
NAME          OVERTIME
ROWS
 N  cost
 G  press
 G  paint
 L  budget
COLUMNS
    press_overtime  cost    30      press   1
    press_overtime  budget  1
    paint_overtime  cost    28.5    paint   1
    paint_overtime  budget  1
RHS
    week            press   -4      paint   -2.5
    week            budget  12      cost    -1200
ENDATA
