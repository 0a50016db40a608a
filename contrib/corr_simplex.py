"""The simplex method in whole numbers of any size, with the inverse of the basis kept over one denominator (Edmonds 1967).

Rows and columns can be few of many: rows may come later, and of a tableau only the rows are worked out that a pivot needs.
"""
from fractions import Fraction

PATIENCE = 30  # pivots without progress after which Bland's rule chooses, so that no basis comes twice


class Simplex:
    """Weights of 0 or more for columns: by the first row they sum to 1, by an equation to 0, by any other row to 0 or less.

    Variables are numbered: the columns from 0, then the slack of each row. The slacks of the first row and of equations are closed: they
    don't enter. An aim has a number for each column, which is to be great. An order is a list of mixtures of the aims, each as a list of
    factors: the first mixture counts, and the next one where it is equal.
    """

    def __init__(self, rows, aims, equations=False):
        self.rows, self.width = rows, len(rows[0])
        self.basis = [self.width + k for k in range(len(rows))]
        self.closed = set(self.basis if equations else self.basis[:1])
        self.inverse = [[int(k == other) for other in range(len(rows))] for k in range(len(rows))]
        self.denominator = 1
        self.aim(aims)

    def aim(self, aims):
        """Sets the aims. `gains` has for each aim what every variable gains, times the denominator."""
        self.gains = [self._gains(aim) for aim in aims]

    def _gains(self, aim):
        weights = [aim[variable] if variable < self.width else 0 for variable in self.basis]
        taken = _combined(weights, self.inverse, len(self.rows))
        priced = _combined(taken, self.rows, self.width)
        return [self.denominator * number - price for number, price in zip(aim, priced)] + [-price for price in taken]

    def weights(self):
        """The weights that aren't 0, by column, times the denominator."""
        pairs = ((variable, row[0]) for variable, row in zip(self.basis, self.inverse))
        return {variable: weight for variable, weight in pairs if weight and variable < self.width}

    def multipliers(self, mixture):
        """A number for each row, times the denominator: where nothing gains, they mix the rows to no less than the aims."""
        return [-gain for gain in self._mixed(mixture)[self.width :]]

    def add(self, row):
        """Adds a row that may sum to less than 0; its slack comes into the basis."""
        weights = [-row[variable] if variable < self.width else 0 for variable in self.basis]
        made = _combined(weights, self.inverse, len(self.rows))
        self.inverse = [old + [0] for old in self.inverse] + [made + [self.denominator]]
        self.basis.append(self.width + len(self.rows))
        self.rows.append(row)
        for gains in self.gains:
            gains.append(0)

    def enter(self, variable):
        """Brings a column into the basis in place of a closed slack."""
        column = self._column(variable)
        self._pivot(self._closed_place(column), variable, column)

    def climb(self, order):
        """Pivots until nothing gains, from weights that are 0 or more."""
        idle = 0
        variable = self._entering(order, False)
        while variable is not None:
            column = self._column(variable)
            place = self._leaving(column)
            idle = 0 if self.inverse[place][0] else idle + 1
            self._pivot(place, variable, column)
            variable = self._entering(order, idle > PATIENCE)

    def repair(self, order):
        """Pivots until no weight is below 0, from a basis at which nothing gains, and keeps it so."""
        idle = 0
        place = self._broken(False)
        while place is not None:
            row = self._tableau_row(place)
            variable, progress = self._replacing(row, order)
            idle = 0 if progress else idle + 1
            self._pivot(place, variable, self._column(variable), row)
            place = self._broken(idle > PATIENCE)

    def _mixed(self, mixture):
        return _combined(mixture, self.gains, self.width + len(self.rows))

    def _entering(self, order, careful):
        """A variable that gains: the one that gains most, or where this is done carefully the first. None where none gains."""
        candidates = [variable for variable in range(self.width + len(self.rows)) if variable not in self.closed]
        for mixture in order:
            mixed = self._mixed(mixture)
            gaining = [variable for variable in candidates if mixed[variable] > 0]
            if gaining:
                return gaining[0] if careful else max(gaining, key=mixed.__getitem__)
            candidates = [variable for variable in candidates if mixed[variable] == 0]
        return None

    def _closed_place(self, column):
        places = (place for place, variable in enumerate(self.basis) if variable in self.closed and column[place])
        return next(places, None)

    def _leaving(self, column):
        """The place whose weight comes to 0 first; a closed slack, which has to stay 0, goes before all others."""
        closed = self._closed_place(column)
        if closed is not None:
            return closed
        falling = (place for place, entry in enumerate(column) if entry > 0)
        return min(falling, key=lambda place: (Fraction(self.inverse[place][0], column[place]), self.basis[place]))

    def _broken(self, careful):
        """A place with a weight below 0, or None."""
        broken = [place for place, row in enumerate(self.inverse) if row[0] < 0]
        key = self.basis.__getitem__ if careful else lambda place: (self.inverse[place][0], self.basis[place])
        return min(broken, key=key, default=None)

    def _replacing(self, row, order):
        """The variable that may come in for a row's weight so that nothing gains afterwards, and whether the aims fall by it."""
        candidates = [variable for variable, entry in enumerate(row) if entry < 0 and variable not in self.closed]
        progress = False
        for mixture in order:
            mixed = self._mixed(mixture)
            candidates = _least(candidates, mixed, row)
            progress = progress or mixed[candidates[0]] != 0
        return candidates[0], progress

    def _column(self, variable):
        """The tableau's column of a variable."""
        if variable >= self.width:
            return [row[variable - self.width] for row in self.inverse]
        entries = [(k, row[variable]) for k, row in enumerate(self.rows) if row[variable]]
        return [sum(row[k] * entry for k, entry in entries) for row in self.inverse]

    def _tableau_row(self, place):
        row = self.inverse[place]
        return _combined(row, self.rows, self.width) + row

    def _pivot(self, place, variable, column, row=None):
        """Exchanges the variable at a place of the basis. Divisions leave no rest: all numbers are determinants."""
        row = row or self._tableau_row(place)
        pivot, old, kept = column[place], self.denominator, self.inverse[place]
        self.inverse = [
            each if other == place else _eliminated(each, entry, kept, pivot, old)
            for other, (each, entry) in enumerate(zip(self.inverse, column))
        ]
        self.gains = [_eliminated(gains, gains[variable], row, pivot, old) for gains in self.gains]
        self.denominator = pivot
        self.basis[place] = variable
        if pivot < 0:
            self.denominator = -pivot
            self.inverse = [[-number for number in each] for each in self.inverse]
            self.gains = [[-number for number in each] for each in self.gains]


def _combined(factors, rows, width):
    """The sum of the rows times the factors."""
    total = [0] * width
    for factor, row in zip(factors, rows):
        if factor:
            total = [number + factor * entry for number, entry in zip(total, row)]
    return total


def _eliminated(row, entry, kept, pivot, old):
    if entry:
        return [(pivot * number - entry * other) // old for number, other in zip(row, kept)]
    return row if pivot == old else [pivot * number // old for number in row]


def _least(candidates, gains, row):
    """The candidates with the least quotient of gain and entry; the entries are below 0."""
    best = [candidates[0]]
    for variable in candidates[1:]:
        difference = gains[variable] * row[best[0]] - gains[best[0]] * row[variable]
        if difference < 0:
            best = [variable]
        elif difference == 0:
            best.append(variable)
    return best
