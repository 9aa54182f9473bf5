"""What pytest knows of these tests: their options, what they are lent, and what is told at the end."""
import fcntl
import os
import subprocess
import tempfile
import threading
import time

import pytest
from harness import checks, database, proxies, running

PROVED, UNPROVED = (f"{running.ROOT}/crates/hall/out/{it}hall" for it in ("", "unproved/"))
# So many seconds go by between two lines that tell how far the tests are.
EVERY = 15


def pytest_addoption(parser):
    of = parser.getgroup("the hall")
    of.addoption("--program", default=os.environ.get("HALL"), help="the program, in place of the one that ./hall runs")
    of.addoption("--all", action="store_true", help="each call and each request for memory, which takes hours")
    of.addoption("--every", type=int, default=1, help="of the calls that are changed, one in so many")
    of.addoption("--seed", type=int, default=1, help="of what is random")
    of.addoption("--pictures", help="the folder for pictures of the page")


def chosen(given):
    """The program, and the command that runs it: ./hall, where it runs a proved one."""
    if given:
        return [os.path.abspath(given)] * 2
    command = f"{running.ROOT}/hall"
    ran = subprocess.run([command, "--version"], capture_output=True, text=True, check=False)
    if ran.returncode:
        raise pytest.UsageError(f"./hall has no program to test: {ran.stderr.strip()[-500:]}")
    return [UNPROVED] * 2 if "built without proofs" in ran.stderr else [PROVED, command]


def pytest_configure(config):
    """What is chosen once is handed on to the processes that -n makes."""
    if hasattr(config, "workerinput") or config.option.help or config.option.collectonly:
        return
    program, command = chosen(config.option.program)
    if not os.access(program, os.X_OK):
        raise pytest.UsageError(f"there is no program {program}")
    config.hall_room = tempfile.TemporaryDirectory(prefix="hall-tests-")
    os.environ.update(HALL=program, HALL_COMMAND=command, HALL_ALONE=f"{config.hall_room.name}/alone")


def pytest_unconfigure(config):
    if hasattr(config, "hall_room"):
        config.hall_room.cleanup()


def pytest_collection_modifyitems(config, items):
    """Those that need the machine for themselves are last; those that take hours are left out unless all are asked
    for."""
    left = [it for it in items if it.get_closest_marker("long") and not config.option.all]
    config.hook.pytest_deselected(items=left)
    kept = [it for it in items if it not in left]
    items[:] = sorted(kept, key=lambda it: it.get_closest_marker("alone") is not None)


@pytest.fixture(autouse=True)
def machine(request):
    """Waits until the machine is free: wholly, for a test that is to run alone."""
    with open(os.environ["HALL_ALONE"], "w", encoding="ascii") as file:
        fcntl.flock(file, fcntl.LOCK_EX if request.node.get_closest_marker("alone") else fcntl.LOCK_SH)
        yield


@pytest.fixture(scope="session")
def program():
    """The path of the built program."""
    return os.environ["HALL"]


@pytest.fixture
def room():
    """A folder of the test's own."""
    with tempfile.TemporaryDirectory(prefix="hall-test-") as folder:
        os.chmod(folder, 0o755)
        yield folder


@pytest.fixture
def db(room):
    """A database file as sqlite3 writes it, with a published round and one that isn't."""
    return database.written(f"{room}/hall.db", database.TABLES, database.ROWS)


@pytest.fixture
def served(program, db):
    """That file as the program serves it: the process and its port."""
    with running.serving(db, 1_000_000, program) as (server, port):
        running.connected(server, port).close()
        yield server, port


@pytest.fixture(params=[proxies.HAPROXY, proxies.NGINX], ids=["haproxy", "nginx"])
def proxy(request, room):
    """The kind of proxy, which is installed, and a TLS certificate of localhost in the folder."""
    checks.need(request.param, "openssl", "curl")
    proxies.certificate(room)
    return proxies.KINDS[request.param]


@pytest.hookimpl(tryfirst=True)
def pytest_runtest_setup():
    checks.begin()


@pytest.hookimpl(hookwrapper=True)
def pytest_runtest_makereport(item, call):
    """A test fails where a check did, whatever else became of it."""
    report = (yield).get_result()
    if call.when == "setup" and report.passed:
        return
    found = checks.begin()
    report.user_properties = [("looked", found.looked), *(("told", it) for it in found.told)]
    wrong = list(found.wrong)
    if report.failed:
        crash = getattr(report.longrepr, "reprcrash", None)
        wrong.append((crash.message if crash else str(report.longrepr)).strip())
    if found.wrong:
        told = "\n".join([f"{len(found.wrong)} of {found.looked} things aren't as wanted:", *found.wrong])
        report.longrepr = told + (f"\n\n{report.longrepr}" if report.failed else "")
        report.outcome = "failed"
    report.user_properties += [("wrong", it) for it in wrong]


class Progress:
    """Tells how far the tests are, and which have failed since it told last; in a thread, as one may take minutes."""

    def __init__(self, session, stats):
        self.session, self.stats, self.begun, self.over = session, stats, time.time(), threading.Event()
        # What is written to standard output while a test runs is kept for that test.
        self.out = os.fdopen(os.dup(1), "w")
        threading.Thread(target=self.run, daemon=True).start()

    def run(self):
        told = 0
        while not self.over.wait(EVERY):
            passed, failed, skipped = numbers(self.stats)
            far = f"{passed + failed + skipped} of {self.session.testscollected} done, {failed} failed"
            names = [it.nodeid for kind in ("failed", "error") for it in self.stats.get(kind, [])][told:]
            told += len(names)
            print(f"tests: {far}, {time.time() - self.begun:.0f} seconds", *names, file=self.out, flush=True)


def reporter_of(config):
    """What reports to whoever started the tests; nothing in the processes that -n makes."""
    return None if hasattr(config, "workerinput") else config.pluginmanager.get_plugin("terminalreporter")


def pytest_sessionstart(session):
    reporter = reporter_of(session.config)
    session.config.hall_progress = Progress(session, reporter.stats) if reporter else None


@pytest.hookimpl(hookwrapper=True)
def pytest_report_teststatus(config):
    """No letter for each test among the lines of Progress."""
    outcome = yield
    if config.option.verbose <= 0:
        outcome.force_result((outcome.get_result()[0], "", ""))


def lines(reports, kind):
    """What the reports tell of a kind, with the names of their tests."""
    for report in reports:
        for name, line in getattr(report, "user_properties", ()):
            if name == kind:
                yield report.nodeid, line


def looked(reports):
    """How many things each file of tests looked at, by `check` and `holds`."""
    found = {}
    for name, count in lines(reports, "looked"):
        file = name.partition("::")[0]
        found[file] = found.get(file, 0) + count
    return ", ".join(f"{count} by {file}" for file, count in sorted(found.items()) if count)


def reason(report):
    """Why a test was skipped."""
    return report.longrepr[2].removeprefix("Skipped: ") if isinstance(report.longrepr, tuple) else str(report.longrepr)


def pytest_terminal_summary(terminalreporter):
    """How much was looked at, what the tests tell, and a line for each that failed, with what was wanted and got, and
    for each that was skipped."""
    def of(*names):
        return [it for name in names for it in terminalreporter.stats.get(name, [])]

    write = terminalreporter.write_line
    write("")
    for _, line in lines(of("passed", "failed", "skipped"), "told"):
        write(line)
    # reports of setup and teardown have the empty name
    write(f"things looked at: {looked(of('passed', 'failed', 'skipped', ''))}")
    for report in of("skipped"):
        write(f"SKIPPED {report.nodeid}: {reason(report)}")
    for report in of("failed", "error"):
        wrong = [line for _, line in lines([report], "wrong")] or [str(report.longrepr)]
        more = f" (and {len(wrong) - 1} more, above)" if len(wrong) > 1 else ""
        write(f"FAILED {report.nodeid}: {' '.join(wrong[0].split())[:1000]}{more}")


@pytest.hookimpl(trylast=True)
def pytest_sessionfinish(session):
    """The last line."""
    reporter = reporter_of(session.config)
    if reporter:
        session.config.hall_progress.over.set()
        session.config.add_cleanup(lambda: print(counted(reporter.stats), flush=True))


def numbers(stats):
    """How many passed, failed and were skipped."""
    passed, failed, skipped, errors = (len(stats.get(it, [])) for it in ("passed", "failed", "skipped", "error"))
    return passed, failed + errors, skipped


def counted(stats):
    """How many passed and failed, and how many were skipped, where some were."""
    passed, failed, skipped = numbers(stats)
    return f"{passed} passed, {failed} failed" + (f", {skipped} skipped" if skipped else "")
