"""Document 02, Paper 5: what lies between two marks. The call answers as those of document 01 do."""

from .calls import bad_count, damaged, list_refusal, not_whole, other_net
from .forest import ABSENT, above, net_of, ties_of


def marks_above_both(parents, one, other):
    """Lowest first."""
    return sorted(set(above(parents, one)) & set(above(parents, other)))


def related(parents, one, other):
    """The two ranks are equal or one is above the other."""
    return one == other or one in above(parents, other) or other in above(parents, one)


def separate_refusal(parents, loads, one, other, flat, tables):
    n = len(parents)
    if bad_count(n):
        return 1
    if any(len(table) != n for table in (loads, *tables)) or not_whole(flat):
        return 2
    if damaged(parents, loads):
        return 30
    if one >= n or other >= n:
        return 4
    if list_refusal(n, flat):
        return list_refusal(n, flat)
    if other_net(parents, loads, flat):
        return 23
    return 31 if related(parents, one, other) else 0


def separate(parents, loads, one, other, flat, *tables):
    """The tables: the list of marks, and the two comparison tables. Behind them the length of the list and the lowest
    of it are answered, absent for "none"."""
    number = separate_refusal(parents, loads, one, other, flat, tables)
    if number not in (0, 23, 31):
        return number, *tables, None, None
    table, compared = tables[0], net_of(len(parents), ties_of(flat))
    if number:
        return number, table, *compared, None, None
    marks = marks_above_both(parents, one, other)
    return 0, marks + table[len(marks):], *compared, len(marks), min(marks, default=ABSENT)
