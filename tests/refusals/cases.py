"""The table of crates/refusals: each case with its numbers and the answer that document 01's table of numbers gives it.
`cases.py stdin` prints what the program reads, `cases.py stdout` what it must write."""
from products import *
from chains import *
from rows import *

letters()
for kind in range(2):
    one_site(kind)
    whole_products(kind)
    moved(kind)
product_rows()
handed()
for kind in range(4):
    products_in_sets(kind)
    sets(kind)
    added(kind)
multiplied()
scaled()
pairs()
full_operators()
full_operators_at_64()
remapping()
remapping_two()
remapping_together()
for code in range(7):
    rows(code)
    outside(code)
    full_rows(code)
    zero_sums(code)
    if code > 3:
        sides(code)
    if code > 4:
        parts(code)
whole()
