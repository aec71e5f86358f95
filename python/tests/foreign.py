"""Runs the tests of flows and of assignments that networkx and scipy contain, with the
functions of mcf in place of theirs. Prints how many passed and which did not, and what it skips
because a package isn't installed. Needs pytest.

The status is 0 if exactly the tests that `differing` names fail, and otherwise 1. MCF_LIBRARY names
the library.

    foreign.py networkx|scipy
"""
import contextlib
import importlib
import importlib.util
import os
import sys
import tempfile

TOP = os.path.dirname(os.path.dirname(os.path.dirname(os.path.abspath(__file__))))
sys.path.insert(0, os.path.join(TOP, "python"))

FLOWS = (
    "networkx.algorithms.flow.tests.test_mincost",
    "networkx.algorithms.flow.tests.test_networksimplex",
    "networkx.algorithms.flow.tests.test_maxflow",
)
ASSIGNMENTS = ("scipy.optimize.tests.test_linear_assignment",)
FUNCTIONS = (
    "network_simplex",
    "capacity_scaling",
    "min_cost_flow",
    "min_cost_flow_cost",
    "max_flow_min_cost",
    "maximum_flow",
    "maximum_flow_value",
    "minimum_cut",
    "minimum_cut_value",
)
# The graph of both tests has two least-cost flows, of cost 150. The tests expect one of them, and
# the network simplex of mcf finds the other.
ANOTHER_LEAST_FLOW = {
    "test_mincost.py TestMinCostFlow.test_digraph1",
    "test_networksimplex.py test_digraph1",
}
# Before version 3, networkx' capacity_scaling refuses a graph without nodes, and this test wants
# that. The minimum-cost flow of such a graph is empty, which networkx returns since.
EMPTY_GRAPH = {"test_mincost.py TestMinCostFlow.test_exceptions"}


def differing(way):
    """The tests that fail, each with the reason."""
    found = {}
    if way in ("by auto", "as a backend"):
        found.update(dict.fromkeys(ANOTHER_LEAST_FLOW, "it wants another of the least flows"))
    networkx = sys.modules.get("networkx")
    if networkx is not None and way != "assignments" and int(networkx.__version__[0]) < 3:
        found.update(dict.fromkeys(EMPTY_GRAPH, "it wants a graph without nodes to be refused"))
    return found


class Outcomes:
    """The outcome of each test, by its file and name."""

    def __init__(self):
        self.ended = {}

    def pytest_runtest_logreport(self, report):
        if report.when == "call" or not report.passed:
            self.ended[
                "%s %s" % (os.path.basename(report.location[0]), report.location[2])
            ] = report.outcome


class Counted:
    """A function that counts its calls, and adds options to each."""

    calls = 0

    def __init__(self, function, **options):
        self.function, self.options = function, options

    def __call__(self, *words, **options):
        Counted.calls += 1
        return self.function(*words, **options, **self.options)


def run(way, modules):
    """Runs the tests of some modules. Returns how many passed, and whether exactly those of
    `differing` failed."""
    import pytest

    outcomes = Outcomes()
    Counted.calls = 0
    with open(os.devnull, "w") as nothing, contextlib.redirect_stdout(nothing):
        pytest.main(["-q", "-p", "no:cacheprovider", "--pyargs", *modules], plugins=[outcomes])
    failed = {name for name, outcome in outcomes.ended.items() if outcome == "failed"}
    passed = sum(outcome == "passed" for outcome in outcomes.ended.values())
    said = "%d of %d %s" % (passed, len(outcomes.ended), way)
    print("%s, %d calls of mcf" % (said, Counted.calls))
    differs = differing(way)
    for name in sorted(failed):
        print("  %s: %s" % (name, differs.get(name, "FAILED")))
    return said, passed > 0 and Counted.calls > 0 and failed == differs.keys()


def networkx_ways():
    """networkx with mcf as its backend, if it has backends; and networkx with its functions
    replaced, with two engines."""
    with tempfile.TemporaryDirectory() as folder:
        about = os.path.join(folder, "yokdelm-0.dist-info")
        os.mkdir(about)
        with open(os.path.join(TOP, "packaging/python/entry_points.txt")) as words, open(
            os.path.join(about, "entry_points.txt"), "w"
        ) as file:
            file.write(words.read())
        sys.path.insert(0, folder)
        import networkx

        sys.path.remove(folder)
    import mcf.nx
    import mcf.nx_backend

    if hasattr(getattr(networkx, "config", None), "backends"):
        for name in FUNCTIONS:
            setattr(
                mcf.nx_backend.BackendInterface,
                name,
                staticmethod(Counted(getattr(mcf.nx_backend.BackendInterface, name))),
            )
        networkx.config.backend_priority = ["mcf"]
        yield run("as a backend", FLOWS)
        networkx.config.backend_priority = []
    for engine in ("auto", "scaling"):
        for name in FUNCTIONS:
            setattr(networkx, name, Counted(getattr(mcf.nx, name), engine=engine))
        yield run("by " + engine, FLOWS)


def scipy_ways():
    """scipy with its function replaced."""
    import mcf
    import scipy.optimize

    scipy.optimize.linear_sum_assignment = Counted(mcf.linear_sum_assignment)
    yield run("assignments", ASSIGNMENTS)


def main(package):
    lacking = [name for name in (package, "pytest") if importlib.util.find_spec(name) is None]
    if lacking:
        print("skipped: %s has no %s" % (sys.executable, " and no ".join(lacking)))
        return 0
    said, good = zip(*{"networkx": networkx_ways, "scipy": scipy_ways}[package]())
    print(
        "%s %s: %s: %s"
        % (
            package,
            importlib.import_module(package).__version__,
            ", ".join(said),
            "as expected" if all(good) else "FAILED",
        )
    )
    return 0 if all(good) else 1


if __name__ == "__main__":
    sys.exit(main(sys.argv[1]))
