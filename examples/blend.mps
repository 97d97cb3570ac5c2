* The cheapest way to blend 100 cubic metres of petrol from five components.
*
* Columns are cubic metres of each component, with its price per cubic metre as cost. Octane numbers and vapour
* pressures (in bar) are taken to mix by volume, so the octane numbers of 100 cubic metres add up to at least
* 100 times 90, and their vapour pressures to at most 100 times 0.7. Two components come from stock.
NAME          BLEND
ROWS
 N  cost
 E  volume
 G  octane
 L  vapour
 L  cracked_stock
 L  alkylate_stock
COLUMNS
    naphtha     cost            380     volume      1
    naphtha     octane          70      vapour      1.0
    cracked     cost            580     volume      1
    cracked     octane          90      vapour      0.6
    cracked     cracked_stock   1
    reformate   cost            660     volume      1
    reformate   octane          96      vapour      0.4
    alkylate    cost            620     volume      1
    alkylate    octane          96      vapour      0.5
    alkylate    alkylate_stock  1
    butane      cost            300     volume      1
    butane      octane          90      vapour      4.0
RHS
    batch       volume          100     octane      9000
    batch       vapour          70      cracked_stock   50
    batch       alkylate_stock  20
ENDATA
