"""Tests of a service that is killed, and of the files that a power cut leaves."""
import random
import time

import pytest

from harness import power_cuts as cuts
from harness.checks import holds, same, until
from harness.programs import SHELL
from harness.service import Client, meanwhile, patient_client, Submitter

# ---- kills


def test_killed_and_started_again(folder):
    client = folder.open("q", seconds=2)
    jobs = [client.submit("q", f"{number}\n") for number in range(3)]
    client.until_state(jobs[0], "5")
    client = folder.reopen()
    client.until_ended(jobs)
    same("each was printed", sorted(set(folder.printed().split())), ["0", "1", "2"])


def test_ends_as_its_queue_says(folder):
    """A job whose attempt is lost with the service is tried again or ends as the policy of its queue says."""
    client = folder.open()
    policies = {"abort-job": "8 attempt-lost", "retry-job": "9", "retry-current-job": "9", "stop-printer": "3 none"}
    jobs = {}
    for policy in policies:
        folder.queue(client, policy, 0, policy, "waits", interval=1)
        jobs[policy] = client.submit(policy, f"{policy}\n")
    client.until_ended(jobs.values(), "5")
    folder.kill()
    folder.write("go", "")
    client = folder.open()
    for policy, state in policies.items():
        client.until_state(jobs[policy], state)
    stopped = [line.split()[1] for line in client.listing("queues\n") if line.split()[2] == "5"]
    same("the queue that stopped", stopped, ["stop-printer"])


def test_killed_at_random(folder):
    """Documents are sent to a service that is killed again and again: each is accepted once, and printed once or again."""
    kills, folder.words = [0], ["--quiet", "--keep", "1000000"]
    wanted = 1_000 if folder.is_long else 40
    folder.start()
    folder.queue(Client(folder), "q")

    def killer(stop):
        while not stop.wait(random.uniform(0.02, 0.6)):
            folder.kill()
            kills[0] += 1
            folder.launch()
            # One service in four may be killed while it opens its spool.
            if random.randrange(4):
                until("the service", lambda: stop.is_set() or folder.serves())

    submitter, titles = Submitter(folder), {}
    with meanwhile(killer):
        while kills[0] < wanted:
            title = f"token-{len(titles):05}."
            titles[title] = submitter.submit(title)
            # On a disk whose syncs take no time jobs are accepted faster than a service prints that is killed all the time.
            until("some are printed", lambda: wanted <= kills[0] or len(titles) < 40 + folder.printed().count("\n"), 300)
    check_printed(folder, titles, f"{kills[0]} kills; lines lost at {submitter.lost}")


def check_printed(folder, titles, what):
    client = patient_client(folder)
    until("all are printed", lambda: {state[0] for state in client.states().values()} <= set("479"), 300)
    rows = [line.split() for line in client.listing("jobs\n")]
    accepted = {row[7].strip('"') if len(row) == 8 else row[-1].strip('"'): int(row[1]) for row in rows if row[3] == "9"}
    same("each was accepted once", accepted, titles)
    same("nothing else", len([row for row in rows if row[3] == "9"]), len(titles))
    lines = folder.printed().split()
    printed = [lines.count(title) for title in titles]
    again = len([count for count in printed if 1 < count])
    print(f"  {len(titles)} documents, {what}; printed once {printed.count(1)}, again {again}, never {printed.count(0)}")
    same("printed never", printed.count(0), 0)


# ---- power cuts

def traced_service(folder, children):
    """The steps of a service that prints by these children, does its maintenance and is shut down."""
    folder.words, folder.size = [*children.words, "--keep", "2"], cuts.SIZE
    folder.environment["ASAN_OPTIONS"] = "detect_leaks=0"
    with folder.under_strace(*cuts.SERVICE_STRACE) as client:
        converse(folder, client, Client(folder))
        folder.shut_down()
    tracing = cuts.ServiceTracing(folder.at("spool"))
    tracing.read(folder.at("calls"))
    return tracing.steps


def converse(folder, first, second):
    """Two clients whose jobs have one filter each. At most two ended jobs are kept."""
    folder.queue(first, "hall", 0, "retry-job", "s", "a/b", 1)
    folder.queue(second, "lab", 6, "retry-current-job", "s", "a/b", 1)
    jobs = []
    for turn in range(4):
        job = first.create("hall", f"First {turn}")
        other = second.create("lab", "Late", int(time.time()) - turn) if turn % 2 else None
        first.finish(job, "0123456789" * (10 + turn), 2, "a.x")
        if other:
            second.finish(other, "late", 2, "b.x")
            holds("a reply", second.ask(f"cancel {other}\n").startswith(("ok", "error")))
        jobs.append(job)
    same("a checkpoint", first.ask("checkpoint\n"), "ok")
    until("the first ones are purged", lambda: len(first.states()) <= 3)
    same("the last one", first.ask(f"wait {jobs[-1]}\n").split()[3:5], ["9", "job-completed-successfully"])


@pytest.mark.strace
@pytest.mark.needs("spool_shell")
def test_power_cuts(folder, seed):
    """Each file that a power cut may leave has the table after a prefix of the events, including all that were acknowledged."""
    run_folder = cuts.RunFolder(SHELL, folder.path)
    steps = traced_service(folder, run_folder.children)
    kinds = [step.kind for step in steps]
    print(f"  {len(steps)} steps: " + ", ".join(f"{kinds.count(kind)} {kind}" for kind in sorted(set(kinds))))
    holds("replies, starts and syncs were seen", {"reply", "start", "sync", "write"} <= set(kinds))
    cuts.cuts(run_folder, list(cuts.moments_of(steps, b"")), seed, 2_000 if folder.is_long else 150)
    controls = cuts.CONTROLS if folder.is_long else cuts.CONTROLS[:1]
    for control in controls:
        tries = cuts.is_seen(run_folder, steps, control, seed)
        holds(f"{control.__name__} is seen to lose", tries is not None)
        print(f"  {control.__name__}: seen at cut {tries}")
