"""Texts with the first fault of each, worked out from docs/FORMATS.md by hand; and texts that look faulty and aren't.

`FAULTS` and `GOOD` are MPS texts, `LP_FAULTS` and `LP_GOOD` LP texts.

Where a text is a list, its members are its lines, each with a line feed behind it. A text of bytes is taken as it stands.
"""

# The head of most texts: a row of each type, an N row that is dropped, and one column. The next line is line 9.
HEAD = ["ROWS", " N c", " L l", " G g", " E e", " N d", "COLUMNS", " x c 1 l 1"]
LONG = "n" * 255
LONGER = "n" * 256
# 2^127 - 1 is the greatest numerator, and so 2^127 is one too many.
GREATEST = "170141183460469231731687303715884105727"
TOO_GREAT = "170141183460469231731687303715884105728"


def many_rows(count):
    return ["ROWS", " N c", *(f" L r{i}" for i in range(count)), "COLUMNS"]


def many_columns(count):
    return ["ROWS", " N c", "COLUMNS", *(f" x{j} c 1" for j in range(count))]


def many_entries(last):
    """256 rows and 256 full columns, which are all the entries that there may be, and a column with one more."""
    lines = many_rows(256)
    for j in range(256):
        lines += [f" x{j} r{i} 1 r{i + 1} 1" for i in range(0, 256, 2)]
    return [*lines, f" last r0 {last}"]


def model(*lines):
    """The head with these lines behind it, and the end."""
    return [*HEAD, *lines, "ENDATA"]


def rows(*lines):
    """A file whose section ROWS has these lines behind the objective. The first one is line 3."""
    return ["ROWS", " N c", *lines, "COLUMNS", " x c 1", "ENDATA"]


# Kind, line, text, why.
FAULTS = [
    # ---- bytes
    ("byte", 2, ["ROWS", " N c\0", "COLUMNS", "ENDATA"], "NUL behind a name"),
    ("byte", 1, ["* a bell \x07 in a comment", "ROWS", "COLUMNS", "ENDATA"], "comments may not have one either"),
    ("byte", 1, ["* page 1\x0c", "ROWS", "COLUMNS", "ENDATA"], "a form feed"),
    ("byte", 1, "N\0A\0M\0E\0\n\0".encode("latin-1"), "a text of two-byte characters"),
    ("byte", 1, ["NAME a\x7f", "ROWS", "COLUMNS", "ENDATA"], "the byte 127, in the rest of a NAME line"),
    ("byte", 1, ["ROWS\r\r", "COLUMNS", "ENDATA"], "one CR before a line feed is dropped, no second one"),
    ("byte", 2, ["ROWS", " N\rc", "COLUMNS", "ENDATA"], "CR inside a line"),
    ("byte", 3, b"ROWS\nCOLUMNS\nENDATA\r", "CR at the end of a last line without a line feed"),
    ("byte", 2, ["ROWS", "\x0b", "COLUMNS", "ENDATA"], "a vertical tab is no blank, so this is no line of blanks"),
    ("byte", 1, ["WHAT \x1b", "ROWS"], "comes before an unknown section word"),
    ("byte", 1, b"\x1f\x8b\x08\x00\x00", "the first bytes of a compressed file"),
    # ---- section
    ("section", 1, ["rows", " N c"], "section words are in capitals"),
    ("section", 9, model("SOS"), "no section of the profile"),
    ("section", 1, ["WHAT A B"], "comes before the count of words"),
    ("section", 9, model("BOUNDS:"), "the whole word counts"),
    ("section", 2, ["OBJSENSE", "MAX", "ROWS"], "a line that begins with no blank is a section line"),
    ("section", 1, b"\xef\xbb\xbfNAME\nROWS\nCOLUMNS\nENDATA\n", "a byte order mark belongs to the word"),
    # ---- order
    ("order", 1, [" N c", "ROWS"], "a data line before ROWS"),
    ("order", 2, ["NAME", " N", "ROWS"], "a data line before ROWS, whatever its count of words"),
    ("order", 1, [" ROWS", "COLUMNS", "ENDATA"], "a blank in front makes it a data line"),
    ("order", 1, ["COLUMNS", "ROWS", "ENDATA"], "COLUMNS where ROWS should have stood"),
    ("order", 2, ["ROWS", "RHS", "COLUMNS", "ENDATA"], "RHS where COLUMNS should have stood"),
    ("order", 2, ["ROWS", "ENDATA"], "ENDATA where COLUMNS should have stood"),
    ("order", 2, ["ROWS", "ROWS", "COLUMNS", "ENDATA"], "a section twice"),
    ("order", 2, ["ROWS", "NAME", "COLUMNS", "ENDATA"], "NAME behind ROWS"),
    ("order", 10, model("RANGES", "RHS"), "RHS behind RANGES"),
    ("order", 11, model("BOUNDS", " UP x 1", "RANGES"), "RANGES behind BOUNDS"),
    ("order", 9, model("OBJSENSE MAX MAX"), "comes before the count of words"),
    ("order", 2, ["OBJSENSE", "ROWS", "COLUMNS", "ENDATA"], "a known section word where the sense is due"),
    ("order", 2, ["OBJSENSE MIN", " MAX", "ROWS"], "the sense isn't due any more, so it is a data line before ROWS"),
    # ---- words
    ("words", 3, rows(" L"), "one too few in ROWS"),
    ("words", 3, rows(" L r s"), "one too many in ROWS"),
    ("words", 3, rows(" X r s"), "comes before the row's type"),
    ("words", 9, model(" x l"), "one too few in COLUMNS"),
    ("words", 9, model(" iron ore c 5"), "a name has no blanks"),
    ("words", 9, model(" x g 1 e"), "four in COLUMNS: no name of a set stands there"),
    ("words", 9, model(" x g 1 e 1 d"), "six in COLUMNS"),
    ("words", 10, model("RHS", " l"), "one in RHS"),
    ("words", 10, model("RHS", " b l 1 g 2 e"), "six in RHS"),
    ("words", 10, model("RANGES", " l"), "one in RANGES"),
    ("words", 10, model("RANGES", " b l 1 g 2 e"), "six in RANGES"),
    ("words", 10, model("BOUNDS", " UP x"), "two for UP"),
    ("words", 10, model("BOUNDS", " LO b x 1 2"), "five for LO"),
    ("words", 10, model("BOUNDS", " FX"), "one for FX"),
    ("words", 10, model("BOUNDS", " FR"), "one for FR"),
    ("words", 10, model("BOUNDS", " MI b x 1 2"), "five for MI"),
    ("words", 10, model("BOUNDS", " BV"), "one for BV comes before `integer`"),
    ("words", 10, model("BOUNDS", " XX b x 1 2"), "five for an unknown type come before `bound-type`"),
    ("words", 1, ["ROWS N", "COLUMNS", "ENDATA"], "a section line but NAME and OBJSENSE has one word"),
    ("words", 9, [*HEAD, "ENDATA now"], "ENDATA too"),
    ("words", 1, ["OBJSENSE MAX MIN", "ROWS"], "three in an OBJSENSE line"),
    ("words", 2, ["OBJSENSE", " MAX MIN", "ROWS"], "two where the sense is due"),
    ("words", 2, ["OBJSENSE", " N c", "ROWS"], "comes before `sense`"),
    ("words", 8, b"ROWS\n N c\n L l\n G g\n E e\n N d\nCOLUMNS\n x c", "a file cut in the middle of a line"),
    # ---- types and senses
    ("row-type", 3, rows(" X r"), "no type of a row"),
    ("row-type", 3, rows(" l r"), "types are in capitals"),
    ("row-type", 3, rows(" r L"), "the words exchanged"),
    ("row-type", 3, rows(" X c"), "comes before `duplicate-row`"),
    ("row-type", 3, rows(" * c"), "a comment begins at the first byte of its line"),
    ("bound-type", 10, model("BOUNDS", " XX b x 1"), "no type of a bound"),
    ("bound-type", 10, model("BOUNDS", " up x 1"), "types are in capitals"),
    ("bound-type", 10, model("BOUNDS", " x UP"), "two words are a right count for an unknown type"),
    ("bound-type", 10, model("BOUNDS", " FREE b nobody"), "comes before `unknown-column`"),
    ("sense", 1, ["OBJSENSE MAXI", "ROWS"], "no word for a sense"),
    ("sense", 2, ["OBJSENSE", " max", "ROWS"], "sense words are in capitals"),
    # ---- integers
    ("integer", 9, model(" m 'MARKER' 'INTORG'"), "a MARKER line"),
    ("integer", 9, model(" x 'MARKER' 1"), "in a column that stands there"),
    ("integer", 10, model("BOUNDS", " BV x"), "a column of 0 or 1"),
    ("integer", 10, model("BOUNDS", " LI b x 1"), "a whole lower bound"),
    ("integer", 10, model("BOUNDS", " UI b x 1"), "a whole upper bound"),
    ("integer", 10, model("BOUNDS", " SC b nobody many"), "comes before the column and the number"),
    ("integer", 10, model("BOUNDS", " SI b x 1"), "a semi-continuous whole number"),
    # ---- duplicates
    ("duplicate-row", 4, rows(" L r", " G r"), "a row's name twice"),
    ("duplicate-row", 3, rows(" N c"), "names of N rows count too"),
    ("duplicate-row", 5, rows(" N d", " L r", " L d"), "and those of dropped N rows"),
    ("duplicate-column", 10, model(" y c 1", " x g 1"), "a column that begins again"),
    ("duplicate-column", 11, model(" y c 1", " z c 1", " x 'MARKER' 1"), "comes before `integer`"),
    ("duplicate-entry", 9, model(" x l 2"), "a row twice in a column"),
    ("duplicate-entry", 9, model(" x g 0 g 1"), "also where a value is 0"),
    ("duplicate-entry", 9, model(" x c 1"), "the objective twice in a column"),
    ("duplicate-entry", 11, model("RHS", " a l 1", " b l 1"), "a row twice in RHS, though in another set"),
    ("duplicate-entry", 10, model("RHS", " c 1 c 2"), "the objective twice in RHS"),
    ("duplicate-entry", 10, model("RANGES", " g 1 g 2"), "a row twice in RANGES"),
    ("duplicate-entry", 10, model("RHS", " l 1 l -inf"), "comes before `infinite`"),
    # ---- unknown names
    ("unknown-row", 9, model(" x L 1"), "names are told apart by capitals"),
    ("unknown-row", 9, model(" y nobody many"), "comes before the number"),
    ("unknown-row", 10, model("RHS", " b nobody 1"), "in RHS"),
    ("unknown-row", 10, model("RANGES", " l 1 nobody 1"), "in RANGES, in the second pair"),
    ("unknown-row", 9, model(f" x {LONGER} 1"), "however long"),
    ("unknown-column", 10, model("BOUNDS", " UP b nobody 1"), "in BOUNDS"),
    ("unknown-column", 10, model("BOUNDS", " FR x b"), "the last of three words is the column of FR"),
    ("unknown-column", 10, model("BOUNDS", " MI l"), "a row is no column"),
    ("unknown-column", 10, model("BOUNDS", " UP nobody many"), "comes before the number"),
    # ---- numbers
    ("number", 9, model(" x g 1,5"), "a comma is no point"),
    ("number", 9, model(" x g 1e"), "an exponent without digits"),
    ("number", 9, model(" x g . e 1"), "a point without digits, before a second pair"),
    ("number", 9, model(" x g inf"), "no entry is infinite"),
    ("number", 9, model(" x l many"), "comes before `duplicate-entry`"),
    ("number", 9, model(" x d many"), "of a dropped N row too"),
    ("number", 10, model("RHS", " c inf"), "the objective's constant is no bound"),
    ("number", 10, model("RHS", " l 1D5"), "exponents by D"),
    ("number", 10, model("RANGES", " l 1 g nan"), "in the second pair"),
    ("number", 10, model("BOUNDS", " UP b x infinite"), "neither `inf` nor `infinity`"),
    # ---- width
    ("wide", 9, model(f" x g {TOO_GREAT}"), "2^127"),
    ("wide", 9, model(" x g 0.1234567890123456789012345678901234567891"), "forty digits"),
    ("wide", 9, model(" x g 1e-39"), "a digit past the 38th place"),
    ("wide", 9, model(" x d 1e40"), "of a dropped N row too"),
    ("wide", 10, model("RHS", " c 1e39"), "the objective's constant is read as a plain number"),
    ("wide", 10, model("RHS", " l 1e-39"), "small, so not infinite"),
    ("wide", 12, model("RHS", " l 1e-38", "RANGES", " l 1e19"), "1e-38 - 1e19 has 57 digits"),
    ("wide", 12, model("RHS", " e 1e-38", "RANGES", " e -1e19"), "and so has the lower side of an E row"),
    ("wide", 10, model("BOUNDS", " LO x 1e-40"), "in BOUNDS"),
    # ---- infinite values
    ("infinite", 10, model("RHS", " l -inf"), "at most minus infinity"),
    ("infinite", 10, model("RHS", " g 1e20"), "at least infinity: from 1e20 on a number counts as infinite"),
    ("infinite", 10, model("RHS", " e 1e20"), "equal to infinity"),
    ("infinite", 10, model("RHS", " e -Infinity"), "equal to minus infinity"),
    ("infinite", 12, model("RHS", " l inf", "RANGES", " l 1"), "a range at an infinite right-hand side"),
    ("infinite", 12, model("RHS", " g -1e30", "RANGES", " g inf"), "an infinite range at one, too"),
    ("infinite", 10, model("BOUNDS", " LO x inf"), "a lower bound of infinity"),
    ("infinite", 10, model("BOUNDS", " UP x -1e20"), "an upper bound of minus infinity"),
    ("infinite", 10, model("BOUNDS", " FX x inf"), "fixed at infinity"),
    ("infinite", 10, model("BOUNDS", " FX x -1e25"), "fixed at minus infinity"),
    # ---- ranges
    ("range-on-n", 10, model("RANGES", " c 1"), "on the objective"),
    ("range-on-n", 10, model("RANGES", " d 1"), "on a dropped N row"),
    ("range-on-n", 10, model("RANGES", " d many"), "comes before the number"),
    # ---- bounds that are crossed
    ("crossed", 12, model("BOUNDS", " LO x 5", " UP x 4"), "found at ENDATA"),
    ("crossed", 12, model("BOUNDS", " LO x 0", " UP x -1"), "the lower bound 0 was written, so it stays"),
    ("crossed", 12, model("BOUNDS", " UP x -1", " LO x 0"), "a later line takes the lower bound back"),
    ("crossed", 12, model("BOUNDS", " FX x 2", " UP x 1"), "FX counts as a lower bound"),
    # ---- limits
    ("name-long", 3, rows(f" L {LONGER}"), "256 bytes"),
    ("name-long", 3, rows(f" N {LONGER}"), "N rows too"),
    ("name-long", 9, model(f" {LONGER} 'MARKER' 1"), "a column, before `integer`"),
    ("too-many-rows", 259, [*many_rows(257), "ENDATA"], "the 257th row; N rows don't count"),
    ("too-many-rows", 259, [*many_rows(256)[:-1], " E r256", "COLUMNS"], "whatever its type"),
    ("too-many-columns", 4100, [*many_columns(4097), "ENDATA"], "the 4,097th column"),
    ("too-many-columns", 4100, [*many_columns(4096), " y nobody 1", "ENDATA"], "comes before the words behind the name"),
    ("too-many-entries", 259 + 256 * 128 + 1, [*many_entries("1"), "ENDATA"], "the 65,537th entry"),
    ("too-many-entries", 259 + 256 * 128 + 1, [*many_entries("-1e-38"), "ENDATA"], "however small"),
    # ---- the end
    ("end-missing", 1, b"", "no line at all"),
    ("end-missing", 2, b"NAME", "one line without a line feed"),
    ("end-missing", 2, b"\n", "one empty line"),
    ("end-missing", 3, ["OBJSENSE", ""], "the sense is missing as well, but nothing stands in its place"),
    ("end-missing", 4, ["ROWS", " N c", " L l"], "cut in ROWS, though COLUMNS is missing as well"),
    ("end-missing", 9, HEAD, "cut in COLUMNS"),
    ("end-missing", 11, [*HEAD, "RHS", " l 1"], "cut in RHS"),
    ("end-missing", 11, [*HEAD, "RANGES", " l 1"], "cut in RANGES"),
    ("end-missing", 12, [*HEAD, "BOUNDS", " LO x 5", " UP x 4"], "cut in BOUNDS; what is crossed is seen at ENDATA alone"),
    ("end-missing", 10, [*HEAD, " ENDATA c 1"], "a blank in front makes it a data line"),
]

# Texts of a model, and what in them is no fault.
GOOD = [
    (["ROWS", "COLUMNS", "ENDATA"], "no rows and no columns"),
    (["ROWS", "COLUMNS", "ENDATA", " \0 what", "ROWS"], "nothing behind ENDATA is read"),
    (b"ROWS\r\nCOLUMNS\r\n\r\nENDATA", "CR before line feeds, no line feed at the end"),
    (["NAME what \xff follows", "ROWS", "COLUMNS", "ENDATA"], "the rest of a NAME line, bytes above 127"),
    (["* \xe9", " \t ", "ROWS", " N \xff\xfe", "COLUMNS", "\t\x80 \xff\xfe\t1", "ENDATA"], "names of bytes above 127, tabs"),
    (["OBJSENSE", "* due", "", " MAXIMIZE", "ROWS", "COLUMNS", "ENDATA"], "a comment and an empty line before the sense"),
    (rows(f" L {LONG}"), "a name of 255 bytes"),
    (model(" x d 1 d 2", " x d 0", "RHS", " d 1 d inf"), "a dropped N row twice and infinite"),
    (model(f" x g {GREATEST} e 1e-38"), "the greatest number and the last place"),
    (model(" x g 0e99999999999999999999"), "0 with any exponent"),
    (model("RHS", " l inf g -1e20"), "infinite right-hand sides that say nothing"),
    (model("RHS", f" l {TOO_GREAT}"), "too wide, but it is 1e20 or more, so infinite"),
    (model("RHS", " c 1e25"), "the objective's constant has no infinity"),
    (model("RANGES", " l inf", " g -1e20", " e -inf"), "infinite ranges"),
    (model("RHS", " l 99999999999999999999", "RANGES", " l -99999999999999999999"), "a computed side beyond 1e20 is a number"),
    (model("BOUNDS", " FR b x many"), "the last of four words of FR isn't read"),
    (model("BOUNDS", " PL x", " MI x", " UP b x INF", " LO x -infinity"), "infinite bounds"),
    (model("BOUNDS", " LO x 5", " UP x 4", " UP x 6"), "crossed for a while"),
    (model("BOUNDS", " UP x -1"), "the lower bound, which no line wrote, is taken away"),
    ([*many_rows(256)[:-1], " N d", " N f", "COLUMNS", "ENDATA"], "256 rows and more N rows"),
    ([*many_columns(4096), "ENDATA"], "4,096 columns"),
    ([*many_entries("0"), "ENDATA"], "65,536 entries and one of value 0"),
]


def lp(*lines):
    """An LP text of rows alone. The first of them is line 3."""
    return ["min x", "st", *lines, "end"]


LP_FAULTS = [
    ("byte", 3, lp("3 * x <= 4"), "no product sign"),
    ("byte", 3, lp("c: x[1] <= 4"), "no index"),
    ("byte", 3, lp("x <= 4 \x0b"), "a control byte"),
    ("byte", 3, lp("\xfc >= 1"), "a byte above 127"),
    ("byte", 3, b"min x\nst\nx >= 1\r", "CR without a line feed"),
    ("syntax", 3, lp("3 x y <= 4"), "no sign between terms"),
    ("syntax", 3, lp("x + 2 <= 4"), "a number without a name in a row"),
    ("syntax", 3, lp("2 >= x <= 5"), "relations that point two ways"),
    ("syntax", 3, lp("2 <= x = 5"), "a second relation `=`"),
    ("syntax", 4, lp("x <="), "the value is missing where `end` stands"),
    ("syntax", 2, ["min x +", "st", "end"], "a sign without a term"),
    ("syntax", 4, ["min x", "st", "bounds", "2 x <= 4", "end"], "a bound has no coefficient"),
    ("syntax", 3, lp("c: d: x <= 4"), "two labels"),
    ("order", 1, ["st", "x <= 4", "end"], "the objective is missing"),
    ("order", 2, ["min x", "bounds", "end"], "the rows are missing"),
    ("order", 3, lp("min x"), "a second objective"),
    ("order", 5, ["min x", "st", "x <= 4", "bounds", "st", "end"], "the rows a second time"),
    ("integer", 3, lp("general", "x"), "whole columns"),
    ("integer", 1, ["binary", "x", "end"], "wherever it stands"),
    ("duplicate-row", 4, lp("c: x <= 4", "c: x >= 1"), "a label twice"),
    ("duplicate-row", 4, lp("R2: x <= 4", "x >= 1"), "the second row's own name is R2"),
    ("wide", 3, lp(f"{TOO_GREAT} x >= 1"), "2^127"),
    ("wide", 3, lp("1e-38 x + 1e19 x >= 1"), "the sum of the terms"),
    ("wide", 1, ["min 1e38 + 1e38 + x", "st", "end"], "the sum of the constant"),
    ("wide", 3, lp("x >= 1e-39"), "a value that is small, so not infinite"),
    ("infinite", 3, lp("x >= inf"), "at least infinity"),
    ("infinite", 3, lp("x <= -1e20"), "at most minus infinity"),
    ("infinite", 3, lp("x = infinity"), "equal to infinity"),
    ("infinite", 4, ["min x", "st", "bounds", "inf <= x", "end"], "in bounds"),
    ("crossed", 3, lp("4 <= x <= 2"), "a row, at its last token"),
    ("crossed", 6, ["min x", "st", "bounds", "x = 3", "x >= 4", "end"], "a column, at `end`"),
    ("name-long", 3, lp(f"{LONGER} >= 1"), "a column of 256 bytes"),
    ("name-long", 4, lp(f"{LONGER}: x", ">= 1"), "a row, at its last token"),
    ("too-many-rows", 259, lp(*("x >= 1" for _ in range(257))), "the 257th row"),
    ("too-many-rows", 260, lp(*(f"c{i}: x >= 1" for i in range(256)), "c: x", ">= 1"), "at its last token"),
    ("too-many-columns", 4098, ["min", *(f"+ x{j}" for j in range(4097)), "st", "end"], "the 4,097th column"),
    ("too-many-columns", 4099, ["min", *(f"+ x{j}" for j in range(4096)), "st", "y >= 1", "end"], "in a row"),
    ("end-missing", 1, b"", "no line at all"),
    ("end-missing", 4, ["min x", "st", "x >= 1"], "cut in the rows"),
    ("end-missing", 3, b"min x\nst", "without a line feed"),
]

LP_GOOD = [
    (["min", "st", "end"], "an empty objective and no rows"),
    (["MAXIMISE obj: - - x + 3 - y", "Subject", "To", "S.T.: x >= 1", "Bounds", "End", "* what [ever]"], "words in any capitals"),
    (lp("e1 + 2e3 x - 2 e <= 4"), "names that look like exponents"),
    (lp("x \\ a comment \x01 [", ">= 1"), "a row in two lines, anything in a comment"),
    (lp("x - x >= 1"), "a sum of 0"),
    (lp("-inf <= x", "x <= 1e20"), "sides that aren't there"),
    (["min x", "st", "bounds", "x <= -1", "y free", "-inf <= z <= 3", "end"], "bounds that take others away"),
    (lp("end: x >= 1"), "a label that is a section word"),
    (b"min x\nst\nx >= 1\nend\r\0", "nothing behind `end` is read"),
    (lp(f"{LONG} >= 1"), "a name of 255 bytes"),
    (lp(*("x >= 1" for _ in range(256))), "256 rows"),
]


def bytes_of(text):
    """A text as bytes: its characters are bytes, as they stand."""
    return text if isinstance(text, bytes) else "".join(line + "\n" for line in text).encode("latin-1")
