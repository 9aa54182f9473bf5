"""A second machine with two disks and a witness: DRBD in two virtual machines with Debian's kernel, without KVM, which
die, are cut off, and come back. It takes minutes, so it is run by --all alone."""
import os
import random
import time

import pytest
from harness import disks, filled
from harness.checks import check, must_be, tell
from harness.machines import can_be_made
from harness.pair import after
from harness.volume import waited

# A machine that may not serve is watched for so many seconds; and so long one is cut off.
WATCHED, CUT_OFF = 25, 15

pytestmark = pytest.mark.long


@pytest.fixture
def parts(program):
    """What the machines need here."""
    disks.need_parts()
    if os.geteuid() != 0 or not can_be_made():
        pytest.skip("only root can make machines, where the system lets it")


@pytest.fixture
def db(room):
    """A round that runs, in a sane file."""
    return filled.fill_sane(f"{room}/hall.db", 2_000)


def goes_on(pair, what, crowd, serving, moment):
    """Sees, after something befell the machines, that this one serves soon and has all that was told."""
    crowd.wait(120)
    first = after(pair.told(), moment)
    must_be(f"{what}: whether the hall goes on", first is not None, True)
    lost, told = pair.lost(serving)
    check(f"{what}: answers that were lost", lost, 0)
    tell(f"{what}: {told} answers told so far, {lost} lost, the next one after {first:.1f} s")


def test_two_disks_and_a_witness(parts, db, program, room):
    """One after another, with the same disks: one that died is whole again before the next thing befalls them."""
    with disks.Pair(room, program, db) as pair:
        one, two = pair["one"], pair["two"]
        begun = time.monotonic()

        crowd = pair.outer(30, 0)
        time.sleep(random.uniform(5, 8))
        one.die()
        goes_on(pair, "DRBD, the machine that serves dies", crowd, two, time.time())
        tell(f"it is back and whole after {pair.back(one, two)}")

        crowd = pair.outer(25, 200)
        time.sleep(random.uniform(5, 8))
        one.die()
        goes_on(pair, "DRBD, the machine that waits dies", crowd, two, time.time())
        tell(f"it is back and whole after {pair.back(one, two)}")

        crowd, inner = pair.outer(40, 400), pair.inner(two, 40, 600)
        time.sleep(random.uniform(6, 9))
        two.cut()
        moment = time.time()
        time.sleep(1)
        before = len(pair.told(inner))
        time.sleep(CUT_OFF)
        check("what is told on the machine that is cut off", len(pair.told(inner)) - before, 0)
        goes_on(pair, "DRBD, the machine that serves is cut off", crowd, one, moment)
        two.mend()
        two.die()
        tell(f"it is back and whole after {pair.back(two, one)}")

        crowd = pair.outer(25, 800)
        time.sleep(5)
        two.die()
        goes_on(pair, "DRBD, the machine that waits dies again", crowd, one, time.time())
        one.die()
        pair.boot(two)
        two.run("drbdadm up hall")
        pair.begin(two)
        served, until = [], time.monotonic() + WATCHED
        while time.monotonic() < until:
            served.append(pair.answers(two))
            time.sleep(1)
        check("whether the machine with the older disk serves alone", any(served), False)
        pair.boot(one)
        one.run("drbdadm up hall")
        pair.begin(one)
        waited("one of both serves", lambda: pair.answers(one) or pair.answers(two), 180)
        lost, told = pair.lost(one if pair.answers(one) else two)
        check("answers that were lost", lost, 0)
        tell(f"DRBD, the machine with the older disk stands still until the other is back: {told} told, {lost} lost")

        waited("both are whole", lambda: one.run("hall-status")[0] == 0, 300)
        crowd = pair.outer(15, 1000)
        time.sleep(random.uniform(6, 9))
        for it in (one, two):
            it.die()
        crowd.wait(120)
        for it in (one, two):
            pair.boot(it)
            it.run("drbdadm up hall")
            pair.begin(it)
        waited("one of both serves", lambda: pair.answers(one) or pair.answers(two), 180)
        lost, told = pair.lost(one if pair.answers(one) else two)
        check("both die: answers that were lost", lost, 0)
        tell(f"DRBD, both lose power at once: {told} answers told so far, {lost} lost; all took "
             f"{time.monotonic() - begun:.0f} s")


def test_without_a_fence_answers_are_lost(parts, db, program, room):
    """So that it is seen that these tests see a loss: a person has the other machine serve, and nothing is fenced."""
    with disks.Pair(room, program, db, fences=False) as pair:
        one, two = pair["one"], pair["two"]
        crowd, inner = pair.outer(35, 0), pair.inner(one, 35, 600)
        time.sleep(6)
        one.cut()
        pair.begin(two)
        time.sleep(CUT_OFF)
        one.mend()
        crowd.wait(120)
        waited("one's own entrants are done", lambda: one.run("pgrep -f [c]rowd.py")[0] != 0)
        lost, told = pair.lost(two)
        check("whether answers were lost", lost > 0, True)
        tell(f"DRBD without a fence: {told} answers told, {len(pair.told(inner))} of them on the machine that was cut "
             f"off, {lost} lost")
