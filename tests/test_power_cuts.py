"""Files of a spool that a power cut may leave: every acknowledged event is in each. harness/power_cuts.py says which files these are."""
import pytest

hypothesis = pytest.importorskip("hypothesis", reason="it needs Debian's package python3-hypothesis")
strategies = pytest.importorskip("hypothesis.strategies")

from harness import journal, power_cuts
from harness.checks import holds
from harness.programs import SHELL

pytestmark = [pytest.mark.strace, pytest.mark.needs("spool_shell"), pytest.mark.long]

# The number of files of each run.
COUNT = 1_000


@pytest.fixture
def run_folder(memory_room):
    return power_cuts.RunFolder(SHELL, memory_room)


@pytest.mark.parametrize("first", [b"", journal.image(power_cuts.SIZE, version=1)], ids=["new", "version one"])
def test_each_file_has_what_was_acknowledged(run_folder, first):
    """A run on a new spool, and one on a spool of version 1, which its first checkpoint converts to a newer one. If a file fails, Hypothesis
    searches an earlier moment and a simpler file, and the folder has the smallest that it found.
    """
    moments = list(power_cuts.moments_of(run_folder.traced(first), first))
    weights = [power_cuts.weight_of(moment) for moment in moments]

    @hypothesis.settings(max_examples=COUNT)
    @hypothesis.given(strategies.randoms(use_true_random=False))
    def has_all(chance):
        at = chance.choices(range(len(moments)), weights)[0]
        hypothesis.note(f"after call {at} of {len(moments)}")
        power_cuts.check(run_folder, moments[at], chance, chance.randrange(power_cuts.PRINTED) == 0)

    has_all()


@pytest.mark.parametrize("control", power_cuts.CONTROLS, ids=lambda control: control.__name__)
def test_a_program_that_syncs_less_is_seen(run_folder, control, seed):
    tries = power_cuts.is_seen(run_folder, run_folder.traced(b""), control, seed)
    holds(f"it is seen in {power_cuts.CONTROL} cuts", tries is not None)
