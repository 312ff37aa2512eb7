#!/usr/bin/env python3
"""What crates/tables_cases must write, worked out from document 01 with no look at the crates `tables`, `fitness` and `opening`.

Run from the repository's root: tests/tables_oracle.py > crates/tables_cases/stdout
The tables of cases are taken from the program's text; the ledger that they change, that of `lent` there, is stated anew below. A row is a
dictionary of fields here, and the numbers of its columns are the oracle's own."""
import datetime
import re
from types import SimpleNamespace

STRIDE, LIMIT, MANDATES, COLLECTIONS = 16, 10**16, 3, 5
CREDITORS, DEBTORS, BANKS, NUMBERS = range(1, 257), range(1, 4097), range(1, 65), range(1, 10**9)
MANDATE = "NUMBER CREDITOR DEBTOR BANK SIGNED CODE STANDING FIRST PRESENTED".split()
COLLECTION = "NUMBER CREDITOR DEBTOR CBANK DBANK AMOUNT DUE STATE DAY".split()
PRESENTED, REJECTED, SETTLED, RETURNED, REFUNDED, REVERSED = STATES = range(6)


def is_date(n):
    try:
        day = datetime.date(n // 10000, n // 100 % 100, n % 100)
    except ValueError:
        return False
    return datetime.date(2010, 1, 1) <= day <= datetime.date(2189, 12, 31)


# ---- refusal 2

def sizes_fit(m):
    """Row counts within the limits, whole rows, and a table of another kind as long as its parties are many."""
    rows = [m.mandate_cells / STRIDE in range(1, 4097), m.collection_cells / STRIDE in range(1, 16385)]
    parties = [(m.banks_of, CREDITORS), (m.creditors, CREDITORS), (m.debtors, DEBTORS), (m.banks, BANKS)]
    return all(rows) and all(len(table) == len(numbers) for table, numbers in parties)


def exists(m, creditor):
    return creditor in CREDITORS and m.banks_of[creditor - 1] != 0


def mandate_fits(m, row):
    """Three standings; FRST is due or not; nothing presented yet is 0."""
    return (row["NUMBER"] in NUMBERS and exists(m, row["CREDITOR"]) and row["DEBTOR"] in DEBTORS and row["BANK"] in BANKS
            and is_date(row["SIGNED"]) and row["CODE"] in (0, 1) and row["STANDING"] in (0, 1, 2) and row["FIRST"] in (0, 1)
            and (row["PRESENTED"] == 0 or is_date(row["PRESENTED"])))


def collection_fits(m, row):
    """A day belongs to the settled and undone states alone."""
    dayless = row["STATE"] in (PRESENTED, REJECTED)
    return (row["NUMBER"] in NUMBERS and exists(m, row["CREDITOR"]) and row["DEBTOR"] in DEBTORS and row["CBANK"] in BANKS
            and row["DBANK"] in BANKS and row["AMOUNT"] in range(1, 10**11) and is_date(row["DUE"]) and row["STATE"] in STATES
            and (dayless or (is_date(row["DAY"]) and row["DAY"] <= m.latest)))


def parties_fit(m):
    added = all(bank == 0 or bank in BANKS for bank in m.banks_of)
    unposted = all(bank != 0 or cents == 0 for bank, cents in zip(m.banks_of, m.creditors))
    return added and unposted and all(abs(cents) <= LIMIT for cents in m.creditors + m.debtors + m.banks)


def is_fit(m):
    return (sizes_fit(m) and m.mandates_used * STRIDE <= m.mandate_cells and m.collections_used * STRIDE <= m.collection_cells
            and (m.latest == 0 or is_date(m.latest)) and 0 <= m.compensation <= LIMIT and parties_fit(m)
            and all(mandate_fits(m, row) for row in m.mandates[: m.mandates_used])
            and all(collection_fits(m, row) for row in m.collections[: m.collections_used]))


def answer(m):
    return 0 if is_fit(m) else 2


# ---- the ledgers of the cases

def empty(mandate_cells, collection_cells, parties=(256, 256, 4096, 64)):
    """Zeros alone, no row used."""
    banks_of, creditors, debtors, banks = ([0] * size for size in parties)
    return SimpleNamespace(latest=0, mandates_used=0, collections_used=0, compensation=0, mandates=[], collections=[], banks_of=banks_of,
                           mandate_cells=mandate_cells, collection_cells=collection_cells, creditors=creditors, debtors=debtors, banks=banks)


def mandate(number, code):
    return dict(NUMBER=number, CREDITOR=1, DEBTOR=5, BANK=2, SIGNED=20240325, CODE=code, STANDING=0, FIRST=0, PRESENTED=20240402)


def collection(number, state, day=0):
    return dict(NUMBER=number, CREDITOR=1, DEBTOR=5, CBANK=1, DBANK=2, AMOUNT=10000, DUE=20240402, STATE=state, DAY=day)


def lent_collections():
    return [collection(70, PRESENTED), collection(71, REJECTED), collection(72, SETTLED, 20240402), collection(73, REFUNDED, 20240412)]


def lent():
    """Creditor 1 of bank 1, two mandates and a collection in each state; the last row of each table is of zeros and not used."""
    m = empty(MANDATES * STRIDE, COLLECTIONS * STRIDE)
    m.latest, m.mandates_used, m.collections_used, m.compensation = 20240412, 2, 4, 10
    m.mandates = [mandate(7, 0), mandate(8, 1), dict.fromkeys(MANDATE, 0)]
    m.collections = lent_collections() + [dict.fromkeys(COLLECTION, 0)]
    m.banks_of[0] = 1
    return m


# ---- the cases, by the table that they stand in or by what they change; each gives the numbers of its lines

def row_count(mandate_cells, collection_cells):
    return [answer(empty(mandate_cells, collection_cells))]


def party_sizes(*parties):
    return [answer(empty(STRIDE, STRIDE, parties))]


def header(latest, mandates, collections, cents):
    m = lent()
    m.latest, m.mandates_used, m.collections_used, m.compensation = latest, mandates, collections, cents
    return [answer(m)]


def mandate_cell(cell, value):
    m = lent()
    m.mandates[cell // STRIDE][MANDATE[cell % STRIDE]] = value
    return [answer(m)]


def collection_cell(cell, value):
    m = lent()
    m.collections[cell // STRIDE][COLLECTION[cell % STRIDE]] = value
    return [answer(m)]


def party(entry, bank, creditor, debtor, other):
    m = lent()
    m.banks_of[entry], m.creditors[entry], m.debtors[-1], m.banks[-1] = bank, creditor, debtor, other
    return [answer(m)]


def lookup(used, number):
    """Among the rows of `lent` and a second one of 70: the lowest used row, 9 where there is none."""
    rows = lent_collections() + [collection(70, PRESENTED)]
    return [next((at for at, row in enumerate(rows[:used]) if row["NUMBER"] == number), 9)]


def opening(mandate_cells):
    """The opening's answer over rubbish, and that to the memory after it: opening looks at row counts and sizes alone."""
    m = empty(mandate_cells, COLLECTIONS * STRIDE)
    m.latest, m.mandates_used, m.collections_used, m.compensation = 77, 900, 900, -5
    m.collections = lent_collections()
    m.banks_of[3], m.creditors[255], m.debtors[0], m.banks[9] = 99, LIMIT + 1, -1, LIMIT + 1
    opened = sizes_fit(m)
    after = empty(m.mandate_cells, m.collection_cells) if opened else m
    return [0 if opened else 2, answer(after)]


TABLES = dict(ROW_COUNTS=row_count, PARTY_SIZES=party_sizes, LOOKUPS=lookup, OPENINGS=opening)
CHANGES = dict(Header=header, Mandate=mandate_cell, Collection=collection_cell, Party=party)
NAMES = dict(STRIDE=STRIDE, LIMIT=LIMIT, MANDATES=MANDATES,
             mandate_column=SimpleNamespace(**{name: at for at, name in enumerate(MANDATE)}),
             collection_column=SimpleNamespace(**{name: at for at, name in enumerate(COLLECTION)}))


def arguments(text):
    return eval(f"({text.strip().rstrip(',')},)".replace("::", "."), {"__builtins__": {}}, NAMES)


def main():
    with open("crates/tables_cases/src/main.rt", encoding="utf-8") as file:
        text = file.read()
    for table, cases in re.findall(r"^const (\w+): \[\(&str, [^=]*= \[\n(.*?)^\];", text, re.M | re.S):
        for name, change, values in re.findall(r'\(\s*"([^"]*)",\s*(?:Change::(\w+)\()?([^()]*)\)', cases):
            first, *more = (CHANGES[change] if change else TABLES[table])(*arguments(values))
            print(f"{name}: {first}")
            for number in more:
                print(f"and the memory after it: {number}")


main()
