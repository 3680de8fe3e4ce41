"""Tests of incoming jobs whose clients have gone, of the moment of the service, and of the first retry of a job."""
import time

from harness.checks import holds, same, until
from harness.service import Client

# The limit of an incoming job in seconds, and how much later it may be canceled; and how much a moment may differ from the clock of the test.
LIMIT = 6
LATE = 15
APART = 5


def left_job(folder, text="x"):
    """A job whose client disconnects in the middle of its document."""
    client = Client(folder)
    job = client.create("q")
    same("send", client.ask(f"send {job} {len(text)}\n{text}\n"), f"ok bytes {len(text)}")
    client.close()
    return job


def test_abandoned_jobs_are_canceled(folder):
    """An incoming job is canceled when its client has gone and nothing was sent to it for the limit, although no client says anything; not
    before; not while its client is connected; and not while another client sends.
    """
    client = folder.open("q", words=["--incoming", str(LIMIT)])
    own = client.create("q")
    began = time.time()
    job, continued = left_job(folder), left_job(folder)
    until("they were left", lambda: len(client.listing("incoming\n")) == 2)
    time.sleep(LIMIT / 2)
    sent = time.time()
    same("send", client.ask(f"send {continued} 1\ny\n"), "ok bytes 2")
    until("it is canceled", lambda: client.state(job) == "7 canceled")
    took = time.time() - began
    holds(f"after {took:.1f} s", LIMIT <= took <= LIMIT + LATE)
    same("a job that was sent to", client.state(continued), "4 job-incoming")
    until("that one is canceled too", lambda: client.state(continued) == "7 canceled")
    took = time.time() - sent
    holds(f"{took:.1f} s after the last send", LIMIT <= took <= LIMIT + LATE)
    same("the job of a client that is connected", client.state(own), "4 job-incoming")
    holds("it is logged", f"job {job} canceled: its client disconnected before it was closed" in folder.log())


def test_jobs_of_an_earlier_service(folder):
    """After a restart all incoming jobs are left, and are canceled after the limit."""
    client = folder.open("q", words=["--incoming", str(LIMIT)])
    jobs = [client.create("q") for _ in range(20)]
    client = folder.reopen("--incoming", str(LIMIT))
    same("at first", {client.state(job) for job in jobs}, {"4 job-incoming"})
    until("they are canceled", lambda: {client.state(job) for job in jobs} == {"7 canceled"})
    folder.writes_nothing()


def test_the_moment_of_the_service(folder):
    """`now` answers with the moment of the service."""
    client = folder.open()
    for _ in range(3):
        words = client.ask("now\n").split()
        same("the words", words[:2], ["ok", "now"])
        holds(f"the moment {words[2]}", abs(int(words[2]) - time.time()) <= APART)
        time.sleep(0.7)
    same("an argument", client.ask("now 7\n"), "error syntax")


# A backend that notes when it is started, and fails.
FAILING = "#!/bin/sh\ndate +%s.%N >>FOLDER/tries\nexit 1\n"


def tries(folder):
    return [float(line) for line in folder.read("tries").split()]


def set_moment(folder, client):
    """Lets a hold end, so that the table has the present moment."""
    folder.queue(client, "stopped")
    client.does("disable stopped")
    held = client.submit("stopped")
    client.does(f"hold {held} {int(time.time()) + 1}")
    until("the end of the hold", lambda: client.state(held).startswith("3 "))


def test_the_first_retry_waits(folder):
    """A service that was idle waits for the interval of a queue before it tries a job again, also for the first time."""
    folder.backend("failing", FAILING)
    client = folder.open("q", scheme="failing", policy="retry-job", interval=5)
    set_moment(folder, client)
    time.sleep(4)
    job = client.submit("q")
    until("two tries", lambda: len(tries(folder)) == 2)
    first, second = tries(folder)
    print(f"  the second try came {second - first:.1f} s after the first")
    holds("it waited for the interval", 4 <= second - first)
    client.does(f"cancel {job}")
    folder.writes_nothing()


def test_a_retry_after_a_failed_start(folder):
    """The same if the backend's program cannot be started."""
    folder.backend("failing", "no program\n")
    folder.write("backend-failing", "", 0o644)
    client = folder.open()
    client.does("queue q failing:/ application/octet-stream retry-job 5 2")
    set_moment(folder, client)
    time.sleep(4)
    began = time.time()
    job = client.submit("q")
    until("an attempt", lambda: client.fields(job)["attempts"] != "0")
    until("two attempts", lambda: client.fields(job)["attempts"] == "2")
    took = time.time() - began
    print(f"  the second attempt came after {took:.1f} s")
    holds("it waited for the interval", 4 <= took)
