"""PicoSAT (Debian's package `picosat`), asked again and again as clauses are added."""
import ctypes
import time

try:
    LIBRARY = ctypes.CDLL("libpicosat.so")
except OSError:
    raise SystemExit("no PicoSAT: apt-get install picosat")
LIBRARY.picosat_init.restype = ctypes.c_void_p
LIBRARY.picosat_set_default_phase_lit.argtypes = [ctypes.c_void_p, ctypes.c_int, ctypes.c_int]
SATISFIABLE = 10
RANDOM_PHASE = 3


class Truth:
    """The truth of each variable, by its number, in the solution found last."""

    def __init__(self, handle):
        self.handle = handle

    def __getitem__(self, variable):
        return LIBRARY.picosat_deref(self.handle, variable) > 0


class Solver:
    """Clauses over variables from 1 on; `adding` and `solving` are the seconds that both have taken so far."""

    def __init__(self, seed=None):
        self.handle = ctypes.c_void_p(LIBRARY.picosat_init())
        self.top = 0
        self.adding = self.solving = 0.0
        if seed is not None:
            LIBRARY.picosat_set_seed(self.handle, seed)
            LIBRARY.picosat_set_global_default_phase(self.handle, RANDOM_PHASE)

    def close(self):
        LIBRARY.picosat_reset(self.handle)

    def variable(self):
        self.top += 1
        return self.top

    def prefer(self, variable, value):
        """Has the solver try this value of the variable first."""
        LIBRARY.picosat_set_default_phase_lit(self.handle, variable, 1 if value else -1)

    def add(self, literals):
        began = time.perf_counter()
        for literal in literals:
            LIBRARY.picosat_add(self.handle, literal)
        LIBRARY.picosat_add(self.handle, 0)
        self.adding += time.perf_counter() - began

    def solve(self, assumed=()):
        """The truth of each variable, by its number, or None."""
        began = time.perf_counter()
        for literal in assumed:
            LIBRARY.picosat_assume(self.handle, literal)
        found = LIBRARY.picosat_sat(self.handle, -1)
        self.solving += time.perf_counter() - began
        if found != SATISFIABLE:
            return None
        return Truth(self.handle)

    def exactly_one(self, variables, unless=()):
        self.add([*unless, *variables])
        for i, first in enumerate(variables):
            for second in variables[i + 1 :]:
                self.add([*unless, -first, -second])

    def counts(self, variables, most):
        """Variables that say whether at least 1, 2, .. most + 1 of these are true."""
        least = []
        for variable in variables:
            now = []
            for k in range(min(len(least) + 1, most + 1)):
                it = self.variable()
                before = least[k] if k < len(least) else None
                below = least[k - 1] if k > 0 else None
                # at least k + 1 of those so far: of those before, or with this one at least k of them
                if before is not None:
                    self.add([-before, it])
                self.add([-variable, it] + ([-below] if below is not None else []))
                self.add([-it, variable] + ([before] if before is not None else []))
                if below is not None:
                    self.add([-it, below] + ([before] if before is not None else []))
                now.append(it)
            least = now
        return least


def search(kind, solver, blocked, assumed=()):
    """A solution of the clauses that is whole by the kind's own test, which adds clauses where one isn't; other than
    the blocked ones."""
    for solution in blocked:
        kind.block(solver, solution)
    while True:
        truth = solver.solve(assumed)
        if truth is None:
            return None
        solution = kind.solution_in(truth)
        if not kind.cut(solver, solution):
            return solution
