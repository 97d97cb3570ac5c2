* A model whose numbers don't fit into 128 bits: 10 x is at least 100, and a very small part of x is at least 1.
*
* The least x is 10^38, which would fit; but on the way 10^-38 is divided by 10, and 10^39 is past 2^127.
NAME          WIDE
ROWS
 N  cost
 G  tens
 G  parts
COLUMNS
    x           cost        1       tens        10
    x           parts       1e-38
RHS
    need        tens        100     parts       1
ENDATA
