"""The rules beside a driver of your own, in pytest: the same events to both, and what they say compared after each. Made for a copy: put your driver in the place of Driver.

    ./library
    PYTHONPATH=c python3 -m pytest examples/test_driver.py       # Debian: python3-pytest, python3-hypothesis
    PYTHONPATH=c python3 examples/test_driver.py                 # the fixed histories alone, with neither

Hypothesis makes histories of any events, with wrong ids among them, and shrinks one that fails to its shortest form.
"""
import munzolkheg as rules

CHUNKS, MEMBERS = 64, 4  # a pool of four legs is enough to disagree on


class Driver:
    """What a driver's author wrote: sessions, version and mark list of a pool, for four of the events. Each event hands back whether it was taken."""

    def __init__(self):
        self.state, self.version, self.written, self.list = {}, 1, False, 0

    def normals(self):
        return {i for i, s in self.state.items() if s == "NORMAL"}

    def fail(self, member, cause):
        if self.state[member] == "NORMAL":
            self.version += 1
        self.state[member] = "FAILED, cause " + cause

    def join_create(self, member):
        if member > 15 or member in self.state or self.written:
            return False
        self.state[member] = "CREATED"
        return True

    def enable(self, member):
        if self.state.get(member) != "CREATED" or self.written:
            return False
        self.state[member] = "NORMAL"
        return True

    def link_down(self, member):
        if self.state.get(member) not in ("CREATED", "NORMAL"):
            return False
        self.fail(member, "link")
        return True

    def write(self, chunk, reached):
        reached = {i for i in range(16) if reached >> i & 1}
        if chunk >= CHUNKS or not self.normals() or reached - self.normals():
            return False
        for member in self.normals() - reached:
            self.fail(member, "IO")
        self.written = self.written or bool(reached)
        self.list = sum(1 << i for i in self.state if i not in self.normals()) if reached else 0
        return True


class Pair:
    """A driver and the rules, side by side."""

    def __init__(self, driver=Driver):
        self.driver, self.pool = driver(), rules.Client(chunks=CHUNKS)

    def event(self, name, *numbers):
        taken, answer = getattr(self.driver, name)(*numbers), getattr(self.pool, name)(*numbers)
        assert taken == answer.accepted, "%s%s: the driver says %s, the rules %s" % (name, numbers, "taken" if taken else "refused", answer)
        for member in range(MEMBERS):
            assert self.driver.state.get(member, "none") == self.pool.session(member), "the session of %d after %s%s" % (member, name, numbers)
        assert self.driver.version == self.pool.version, "the version after %s%s" % (name, numbers)
        if answer and name == "write":
            assert self.driver.list == answer.outcome[2], "the mark list of %s%s" % (name, numbers)


class Forgetful(Driver):
    """A driver with a fault: a leg that a write did not reach is not on the list of that write."""

    def write(self, chunk, reached):
        before = sum(1 << i for i in self.state if i not in self.normals())
        taken = super().write(chunk, reached)
        self.list = before
        return taken


HISTORY = [("join_create", 0), ("enable", 0), ("join_create", 1), ("enable", 1), ("write", 5, 3), ("link_down", 1), ("write", 7, 1), ("join_create", 2), ("link_down", 16), ("write", 64, 1), ("write", 7, 0)]
UNREACHED = [("join_create", 0), ("enable", 0), ("join_create", 1), ("enable", 1), ("write", 5, 1)]


def play(history, driver=Driver):
    pair = Pair(driver)
    for event in history:
        pair.event(*event)


def test_history():
    play(HISTORY)
    play(UNREACHED)


def test_a_fault_is_found():
    try:
        play(UNREACHED, Forgetful)
    except AssertionError as e:
        assert "mark list" in str(e)
    else:
        raise AssertionError("the forgetful driver passed")


try:
    from hypothesis import settings, strategies as st
    from hypothesis.stateful import RuleBasedStateMachine, rule, run_state_machine_as_test
except ImportError:
    pass
else:
    ids = st.one_of(st.integers(0, MEMBERS - 1), st.sampled_from([15, 16]))

    class Histories(RuleBasedStateMachine):
        driver = Driver

        def __init__(self):
            super().__init__()
            self.pair = Pair(self.driver)

        @rule(member=st.integers(0, MEMBERS - 1))
        def join_create(self, member):
            self.pair.event("join_create", member)

        @rule(member=ids)
        def enable(self, member):
            self.pair.event("enable", member)

        @rule(member=ids)
        def link_down(self, member):
            self.pair.event("link_down", member)

        @rule(chunk=st.sampled_from([0, 7, 63, 64]), reached=st.integers(0, 2 ** MEMBERS - 1))
        def write(self, chunk, reached):
            self.pair.event("write", chunk, reached)

    Histories.TestCase.settings = settings(max_examples=200, stateful_step_count=30, deadline=None, database=None)
    TestHistories = Histories.TestCase

    def test_hypothesis_finds_the_fault():
        class Faulty(Histories):
            driver = Forgetful

        try:
            run_state_machine_as_test(Faulty, settings=settings(max_examples=500, stateful_step_count=30, deadline=None, print_blob=False, database=None))
        except AssertionError as e:
            assert "mark list" in str(e)
        else:
            raise AssertionError("the forgetful driver passed")


if __name__ == "__main__":
    test_history()
    test_a_fault_is_found()
    print("test_driver: the fixed histories: the driver and the rules say the same, and a fault is found")
