"""Tests of what the service tells of jobs and queues: times, one queue, jobs by pieces and by token, and each change."""
import random
import time

import pytest

from harness.checks import holds, LONGEST, same, until
from harness.service import Client, fields_of, is_there, SAYS, TYPE, work_of
from harness.written_spools import rows, spool

# A scheme without a program.
MISSING = "missing"

LATER = 4_000_000_000


# ---- times

TIMES = ["created", "closed", "started", "ended"]


def times_of(client, job):
    """The times of a job, by name."""
    fields = client.fields(job)
    return {name: fields[name] for name in TIMES if name in fields}


def is_now(word, began):
    """The second is one since this moment."""
    return word.isdigit() and int(began) <= int(word) <= time.time()


def test_times_of_jobs(folder):
    """A job has the time of each state that it has come to, and the first of its starts. After a restart the earlier times are unknown."""
    client = folder.open("q", scheme="ends")
    folder.queue(client, "again", 1, "retry-job", scheme="ends", interval=1)
    client.does("disable q")
    began = time.time()
    job = client.create("q")
    known = times_of(client, job)
    same("the times of an incoming job", list(known), ["created"])
    holds(f"it was created now: {known}", is_now(known["created"], began))
    time.sleep(1.1)
    closed = time.time()
    client.finish(job)
    known = times_of(client, job)
    same("the times of a waiting job", list(known), ["created", "closed"])
    holds(f"it was closed later: {known}", is_now(known["closed"], closed) and known["created"] < known["closed"])
    time.sleep(1.1)
    started = time.time()
    client.does("enable q")
    client.until_state(job, "9")
    known = times_of(client, job)
    same("the times of an ended job", list(known), TIMES)
    holds(f"it was started later: {known}", is_now(known["started"], started) and known["closed"] < known["started"] <= known["ended"])
    same("they stay", times_of(client, job), known)
    # The times of a listing are the same.
    found = dict(line.split(" ", 1) for line in client.listing(f"list from {job} most 1\n"))
    same("in a piece", {name: found[name] for name in TIMES}, known)
    # A job that is tried again keeps the time of its first start.
    other = client.submit("again")
    until("the first attempt", lambda: client.fields(other)["attempts"] == "1")
    first = times_of(client, other)
    until("two more attempts", lambda: int(client.fields(other)["attempts"]) >= 3)
    later = times_of(client, other)
    same("the first start", (later["started"], list(later)), (first["started"], ["created", "closed", "started"]))
    canceled = client.create("q")
    client.does(f"cancel {canceled}")
    same("a job that was canceled while it was incoming", list(times_of(client, canceled)), ["created", "ended"])
    incoming = client.create("q")
    client = folder.reopen()
    same("after a restart", times_of(client, job), dict.fromkeys(TIMES, "unknown"))
    same("of the other", {name: word for name, word in times_of(client, other).items() if name != "ended"}, dict.fromkeys(TIMES[:3], "unknown"))
    began = time.time()
    client.finish(incoming)
    client.until_state(incoming, "9")
    known = times_of(client, incoming)
    same("the time that is unknown", known["created"], "unknown")
    holds(f"the later times: {known}", all(is_now(known[name], began) for name in TIMES[1:]))
    fresh = client.submit("q")
    client.until_state(fresh, "9")
    holds("of a new job", all(is_now(word, began) for word in times_of(client, fresh).values()))


def test_times_while_the_disk_is_not_written(folder):
    """A question about times writes nothing."""
    client = folder.open("q", stopped=True)
    job = client.submit("q")
    before = folder.disk_time()
    for question in (f"job {job}\n", "list\n", "queue q\n", "incoming\n", "find t\n"):
        client.say(question)
        client.rest_of_listing()
    same("the disk", folder.disk_time(), before)


# ---- queues

def queue_fields(client, name):
    """The lines about a queue."""
    return client.listing(f"queue {name}\n")


TELLS = """#!/bin/sh
echo 'STATE: +media-low,toner-low' >&2
echo 'ATTR: marker-levels=5,80 auth-info-required=none' >&2
echo 'INFO: half done' >&2
touch FOLDER/told
while [ ! -e FOLDER/ends ]; do sleep 0.05; done
"""


def test_one_queue(folder):
    """`queue NAME` shows all fields of a queue, how many of its jobs wait and are held, and which one prints."""
    folder.backend("tells", TELLS)
    client = folder.open()
    same("none", client.ask("queue q\n"), "error queue")
    began = time.time()
    folder.queue(client, "q", "a?b=c", "retry-job", "tells", interval=30)
    client.does('info q "the \\"hall\\"" "Room 1"')
    lines = queue_fields(client, "q")
    changed = lines.pop()
    holds(f"it was changed now: {changed}", changed.startswith("changed ") and is_now(changed[8:], began))
    same("an idle queue", lines, [
        "queue q", "uri tells:/a?b=c", f"type {TYPE}", "policy retry-job", "interval 30", "limit 0", 'info "the \\"hall\\""', 'location "Room 1"',
        "accepting yes", "state 3", "stopped no", "stopping no", "reasons none", 'message ""', "waiting 0", "held 0",
    ])
    jobs = [client.submit("q") for _ in range(4)]
    client.does(*(f"hold {job} indefinite" for job in jobs[2:]))
    client.until_state(jobs[0], "5")
    incoming = client.create("q")
    lines = queue_fields(client, "q")
    same("while it prints", [line for line in lines if line.split()[0] in ("state", "stopped", "stopping", "waiting", "held", "printing")],
         ["state 4", "stopped no", "stopping no", "waiting 3", "held 2", f"printing {jobs[0]}"])
    client.does("reject q", "disable q")
    lines = queue_fields(client, "q")
    same("while it stops", [line for line in lines if line.split()[0] in ("accepting", "state", "stopped", "stopping", "printing")],
         ["accepting no", "state 4", "stopped yes", "stopping yes", f"printing {jobs[0]}"])
    folder.write("ends", "")
    client.until_state(jobs[0], "9")
    lines = queue_fields(client, "q")
    same("when it has stopped", [line for line in lines if line.split()[0] in ("state", "stopped", "stopping", "waiting", "held", "printing")],
         ["state 5", "stopped yes", "stopping no", "waiting 3", "held 2"])
    told = [line for line in lines if line.split()[0] in ("reasons", "message", "attribute")]
    same("what lasts of what its backend told", sorted(told), sorted([
        "reasons media-low", 'message ""', 'attribute auth-info-required "none"', 'attribute marker-levels "5,80"']))
    same("the incoming job", client.state(incoming)[0], "4")
    client = folder.reopen()
    same("after a restart", queue_fields(client, "q")[-1], "changed unknown")
    began = time.time()
    client.does("enable q")
    holds("then it changed", is_now(queue_fields(client, "q")[-1][8:], began))
    # The command of the engine stays.
    folder.queue(client, "other")
    same("a command that lacks words", client.ask("queue r slow:/0\n"), "error syntax")
    same("more words are the command", client.ask(f"queue other slow:/0 {TYPE} retry-job 0 0\n"), "error 2 QueueExists")


def said(client, name="q"):
    """The reasons and the message of a queue, and its line of `printers`, which has the same."""
    fields = dict(line.split(" ", 1) for line in queue_fields(client, name) if line.split()[0] in ("reasons", "message"))
    line = next(line for line in client.listing("printers\n") if line.split()[1] == name)
    same("printers", line.split(" ", 8)[8], f"{fields['reasons']} {fields['message']}")
    return fields["reasons"], fields["message"]


def test_what_attempts_said(folder):
    """A queue shows what the running attempt has said since a stage of it ended, and of attempts that have ended only what lasts. `queues` is
    the command of the engine, and shows everything."""
    folder.two_stages(0, SAYS)
    client = folder.open("q", scheme="prints", target="a/b")
    watcher = Client(folder)
    watcher.does("watch")
    same("before any job", said(client), ("none", '""'))
    everything = "media-low-warning,toner-empty-error"
    for job in (1, 2):
        lasting = "none" if job == 1 else "media-low-warning"
        same("submit", client.submit("q", title="its title", stages=2, name="f.x"), job)
        client.until_state(job, "5")
        same("in its first stage", said(client), (lasting, '""'))
        folder.write(f"filter-{job}", "")
        until("the second stage", lambda: client.fields(job)["stage"].startswith("2 "))
        same("in its second stage", said(client), (everything, f'"job {job}, its title"'))
        folder.write(f"backend-{job}", "")
        client.until_state(job, "9")
        same("after its end", said(client), ("media-low-warning", '""'))
        same("the attribute", [line for line in queue_fields(client, "q") if line.startswith("attribute")], ['attribute marker-levels "5"'])
        same("the command", client.listing("queues\n")[0].split(" ", 8)[8], f'{everything} "job {job}, its title"')
    told = [line.split(" ", 8)[8] for line in watcher.told() if line.startswith("queue q ")]
    same("the last notice", told[-1], 'media-low-warning ""')
    holds(f"notices while it printed: {told}", f'{everything} "job 1, its title"' in told)


# ---- why a job waits

def why(client, job):
    return client.ask(f"why {job}\n").removeprefix("ok why ")


def test_why_jobs_wait(folder):
    """`why` has one cause for each job: first those of the job, then those of its queue, then those of the service."""
    folder.backend("fails", "#!/bin/sh\nexit 1\n")
    client = folder.open("q", "other", words=["--children", "1"], scheme="prints")
    folder.queue(client, "again", policy="retry-job", scheme="fails", interval=1000)
    same("no job", client.ask("why 99\n"), "error job")
    same("another line", client.ask("why 1 2\n"), "error syntax")
    jobs = [client.submit("q") for _ in range(4)]
    client.until_state(jobs[0], "5")
    same("the one that prints", why(client, jobs[0]), "prints")
    same("the others", [why(client, job) for job in jobs[1:]], [f"taken {jobs[0]} ahead {count}" for count in range(3)])
    same("of a full service", why(client, client.submit("other")), "children")
    client.does(f"hold {jobs[1]} indefinite", f"hold {jobs[2]} {LATER}")
    same("held", [why(client, job) for job in jobs[1:3]], ["held", f"held-until {LATER}"])
    client.does("disable q")
    same("of a stopped queue", why(client, jobs[3]), "stopped")
    incoming = client.create("q")
    same("incoming", why(client, incoming), "arriving")
    leaving = Client(folder)
    left = leaving.create("q")
    leaving.close()
    until("its client has left", lambda: why(client, left) == "abandoned")
    failed = client.submit("again")
    for job in (jobs[0], jobs[0] + 4):
        folder.write(f"backend-{job}", "")
    until("the failed attempt", lambda: client.state(failed) == "3 retry-later")
    same("retry", why(client, failed), f"retry {client.fields(failed)['not-before']}")
    client.until_state(jobs[0], "9")
    same("ended", why(client, jobs[0]), "ended")


# ---- pieces

def piece(client, words=""):
    """The jobs of a piece, and the number from which it goes on."""
    client.say(f"list{words}\n")
    *lines, last = client.read_to("ok", "error")
    found, words = fields_of(lines), last.split()
    same("the count", (words[0], words[1]), ("ok", str(len(found))))
    return found, int(words[3]) if len(words) == 4 and words[2] == "more" else None


def whole(client, words=""):
    """All jobs of a listing, piece by piece, and the number of pieces."""
    found, jobs, count = [], None, 0
    following = 1
    while following is not None:
        jobs, following = piece(client, f"{words} from {following}")
        holds("it goes on behind", following is None or not jobs or int(jobs[-1]["job"]) < following)
        found += jobs
        count += 1
    return [int(job["job"]) for job in found], count


def test_jobs_by_pieces(folder):
    """`list` shows jobs with all fields, at most 50 or as many as wanted, and from where to go on. Its keys select."""
    folder.size = 67_108_864
    client = folder.open("a", "b", stopped=True)
    count = 120
    for number in range(count):
        client.say(f'create {"ab"[number % 2]} u{number % 3} "t{number}" 1 50 "x=1"\n')
        holds("create", client.reply().startswith("ok job"))
    held = list(range(10, 20))
    client.does(*(f"cancel {job}" for job in (30, 60)))
    for job in held:
        client.finish(job)
        client.does(f"hold {job} indefinite")
    jobs, more = piece(client)
    same("the first piece", ([int(job["job"]) for job in jobs], more), (list(range(1, 51)), 51))
    jobs, more = piece(client, " most 7 from 3")
    same("seven jobs", ([int(job["job"]) for job in jobs], more), (list(range(3, 10)), 10))
    same("a whole listing", whole(client), (list(range(1, count + 1)), 3))
    same("by hundreds", whole(client, " most 100"), (list(range(1, count + 1)), 2))
    numbers = range(count)
    same("of a queue", whole(client, " queue b")[0], [number + 1 for number in numbers if number % 2])
    same("of a user", whole(client, " user u2")[0], [number + 1 for number in numbers if number % 3 == 2])
    same("of a queue and a user", whole(client, " user u2 queue b")[0], [number + 1 for number in numbers if number % 6 == 5])
    same("in a state", (whole(client, " state 7")[0], whole(client, " state 9")[0]), ([30, 60], []))
    same("those that are held", whole(client, " state 4 queue a most 3")[0], [job for job in range(1, count + 1) if job % 2 and job not in (30, 60)])
    same("of a queue that does not exist", whole(client, " queue nowhere")[0], [])
    same("past the last", piece(client, f" from {count + 1}"), ([], None))
    fields = dict(line.split(" ", 1) for line in client.listing("list from 12 most 1\n"))
    same("the fields are those of `job`", fields, client.fields(12))
    client.does("purge 30")
    same("without one that is purged", whole(client)[0], [job for job in range(1, count + 1) if job != 30])
    for bad in (" most 0", " most 101", " from 0", " state 2", " state 10", " queue", " queue a queue b", " most 5 most 5", " colour red", " from x"):
        same(f"list{bad}", client.ask(f"list{bad}\n"), "error syntax")


@pytest.mark.alone
@pytest.mark.needs("plain spool_service")
def test_pieces_of_many_jobs(folder):
    """A piece takes as much processor time whether there are 100 jobs or 100,000, with a match or without."""
    took = []
    for count in (100, 100_000):
        folder.write("spool/spool.disk", spool(rows(count + 2)))
        folder.launch("--quiet", "--keep", "1000000")
        until("the service", folder.serves, 120)
        client = Client(folder)
        client.does("disable lab")
        # After the start it examines the table once.
        until("it is idle", lambda: is_idle(folder))
        works = [folder.work_for(lambda: piece(client, f"{words} from {count // 2}"), 40) for words in ("", " user nobody")]
        print(f"  {count} jobs: a piece {works[0]:.2f} ms of the processor, one without a match {works[1]:.2f} ms")
        took.append(works)
        if count > 1_000:
            found, steps = whole(client, " most 100")
            same("all jobs", (len(found), len(set(found)), steps >= count // 1000), (count, count, True))
        folder.kill()
    small, large = took
    holds("a piece takes as long", large[0] <= 3 * small[0] + 0.5)
    holds("one without a match ends after some jobs", large[1] <= 3 * small[0] + 3)


def is_idle(folder):
    """Whether the service takes hardly any processor time for half a second."""
    before = work_of(folder.running.pid)
    time.sleep(0.5)
    return work_of(folder.running.pid) - before < 10_000_000


# ---- tokens

def test_tokens_of_jobs(folder):
    """`find` names the job that has the token as the last word of its options, also after a restart, until the job is purged."""
    client = folder.open("q", words=["--keep", "100"], stopped=True)

    def create(options):
        reply = client.ask(f'create q u "t" 1 50 "{options}"\n')
        holds(reply, reply.startswith("ok job "))
        return int(reply.split()[2])

    same("before", client.ask("find abc\n"), "error job")
    first, second = create("submission=abc"), create("media=A4 submission=abd")
    create("submission=hidden media=A4")
    create("xsubmission=other")
    create("submission=" + "n" * 65)
    long = create("submission=" + "l" * 64)
    for token, wanted in (("abc", first), ("abd", second), ("l" * 64, long), ("ab", None), ("abcd", None), ("hidden", None), ("other", None), ("n" * 64, None)):
        same(f"find {token}", client.ask(f"find {token}\n"), f"ok job {wanted}" if wanted else "error job")
    for bad in ("", " a b", " " + "n" * 65, ' "a,b"', " a'b"):
        same(f"find{bad}", client.ask(f"find{bad}\n"), "error syntax")
    third = create("submission=abc")
    same("the last one that has it", client.ask("find abc\n"), f"ok job {third}")
    client = folder.reopen("--keep", "100")
    same("after a restart", [client.ask(f"find {token}\n") for token in ("abc", "abd", "hidden")], [f"ok job {third}", f"ok job {second}", "error job"])
    client.does("reject q")
    holds("a refused job", client.ask('create q u "t" 1 50 "submission=abd"\n').startswith("error "))
    same("it leaves the one that has the token", client.ask("find abd\n"), f"ok job {second}")
    client.does(f"cancel {third}")
    same("an ended job", client.ask("find abc\n"), f"ok job {third}")
    client.does(f"purge {third}")
    same("a purged job", client.ask("find abc\n"), "error job")
    same("another one", client.ask("find abd\n"), f"ok job {second}")


# ---- incoming jobs that their clients have left

def left_jobs(client):
    """The incoming jobs without a client, with their age."""
    return {int(line.split()[1]): int(line.split()[2]) for line in client.listing("incoming\n")}


def test_incoming_jobs(folder):
    """`incoming` shows the incoming jobs whose client has disconnected, with the seconds since then."""
    client, leaver, stayer = folder.open("q", stopped=True), Client(folder), Client(folder)
    left, closed, stays, canceled = leaver.create("q"), leaver.create("q"), stayer.create("q"), leaver.create("q")
    same("none", left_jobs(client), {})
    leaver.finish(closed)
    leaver.close()
    found = {}
    until("those that were left", lambda: found.update(left_jobs(client)) or found)
    began = time.time()
    same("those that were left", found, {left: 0, canceled: 0})
    time.sleep(2.2)
    ages = left_jobs(client)
    holds(f"they grow old: {ages}", set(ages) == {left, canceled} and all(2 <= age <= time.time() - began + 1 for age in ages.values()))
    client.does(f"cancel {canceled}")
    same("a job that has ended", list(left_jobs(client)), [left])
    data, sent = b"send %d 2\nx\n\n" % left, time.time()
    same("another client sends", client.ask(data), "ok bytes 2")
    ages = left_jobs(client)
    holds(f"it ages from its last send: {ages}", list(ages) == [left] and ages[left] <= time.time() - sent + 1)
    client = folder.reopen()
    same("after a restart all are", sorted(left_jobs(client)), sorted([left, stays]))
    holds("close", client.ask(f"close {left} f\n").startswith("ok type "))
    same("a closed one", list(left_jobs(client)), [stays])


# ---- closing with a type

def test_closing_with_a_type(folder):
    """`close JOB NAME TYPE` closes a job as a document of this media type, and otherwise as `close` does."""
    folder.two_stages(0)
    client = folder.open("q", target="a/b")
    folder.queue(client, "raw")
    for queue, name, media, wanted in (
        ("q", "f.x", "a/b", "ok type a/b stages 1"), ("q", "f", "a/a", "ok type a/a stages 2"), ("q", "f.x", "a/a", "ok type a/a stages 2"),
        ("raw", "f.x", TYPE, f"ok type {TYPE} stages 1"),
    ):
        job = client.create(queue)
        same("send", client.ask(b"send %d 2\nx\n\n" % job), "ok bytes 2")
        same(f"close {name} {media} for {queue}", client.ask(f"close {job} {name} {media}\n"), wanted)
        same("its type", client.fields(job)["type"], media)
        client.until_state(job, "9")
    same("the filters", folder.read("stages").split(), ["first", "first"])
    job = client.create("q")
    same("a type without filters", client.ask(f"close {job} f x/unknown\n"), "ok type x/unknown unprintable")
    same("as `close` does", client.state(job), "8 no-filter")
    holds("the log", f"job {job} on q by u: aborted (no-filter)" in folder.log())
    holds("it is closed once", client.ask(f"close {job} f x/unknown\n").startswith("error "))
    job = client.create("q")
    for bad in ("noslash", "a/", "/b", "a b", "a/b c"):
        same(f"close {bad}", client.ask(f"close {job} f {bad}\n"), "error syntax")
    same("it is still incoming", client.state(job)[0], "4")
    same("a job that does not exist", client.ask("close 999 f a/b\n"), client.ask("close 999 f\n"))
    same("a closed one", client.ask("close 1 f a/b\n"), client.ask("close 1 f\n"))


# ---- closing at a size

def test_closing_at_a_size(folder):
    """`closeat JOB SIZE NAME [TYPE]` closes a job whose document has this size, as `close` does. A job of another size is still incoming."""
    folder.two_stages(0)
    client = folder.open("q", target="a/b")
    for words in ("f.x", "f", "f.x a/b", '"a b" a/a', "f x/unknown"):
        closed, sized = client.create("q"), client.create("q")
        for job in (closed, sized):
            same("send", client.ask(b"send %d 2\nx\n\n" % job), "ok bytes 2")
        for size in (0, 1, 3, 2**32 + 2, 9_999_999_999_999):
            same(f"closeat {size}", client.ask(f"closeat {sized} {size} {words}\n"), "error size")
        same("it is still incoming", client.state(sized), "4 job-incoming")
        same(f"close {words}", client.ask(f"closeat {sized} 2 {words}\n"), client.ask(f"close {closed} {words}\n"))
        same("its type", client.fields(sized)["type"], client.fields(closed)["type"])
    client.until_ended([1, 2, 5, 6, 7, 8])
    same("the others have no filters", {client.state(job) for job in (3, 4, 9, 10)}, {"8 no-filter"})
    same("printed", folder.printed(), "x\n" * 6)
    empty, closed = client.create("q"), client.create("q")
    same("another size than none", client.ask(f"closeat {empty} 1 f.x\n"), "error size")
    same("an empty document", client.ask(f"closeat {empty} 0 f.x\n"), client.ask(f"close {closed} f.x\n"))
    job = client.create("q")
    same("send", client.ask(b"send %d 2\nx\n\n" % job), "ok bytes 2")
    for bad in ("", "2", "f", "2 f a/b c", "2 f noslash", "2 f a/", "-1 f", "+2 f", "2x f", "10000000000000 f", "00000000000002 f", '2 "f', '2 "f"g', "2 f\tg a/b"):
        same(f"closeat {bad}", client.ask(f"closeat {job} {bad}\n"), "error syntax")
    for bad in ("closeat", "closeat 0 2 f", "closeat x 2 f", "closeats 1 2 f"):
        same(bad, client.ask(f"{bad}\n"), "error syntax")
    same("it is still incoming", client.state(job)[0], "4")
    same("zeros before the number", client.ask(f"closeat {job} 0000000000002 f.x\n"), "ok type a/a stages 2")


def test_refusals_of_closeat(folder):
    """A job that does not exist, waits, was canceled or was printed: the reply is that of `close`, whatever the size."""
    client = folder.open("q")
    printed = client.submit("q")
    client.until_state(printed, "9")
    client.does("disable q")
    waiting, canceled = client.submit("q"), client.create("q")
    client.does(f"cancel {canceled}")
    for job, wanted in ((999, "error 5 NoJob"), (waiting, "error 6 NotIncoming"), (canceled, "error 10 JobEnded"), (printed, "error 10 JobEnded")):
        same(f"close {job}", client.ask(f"close {job} f\n"), wanted)
        for words in ("2 f", "3 f", "0 f", "2 f a/b", "3 f a/b"):
            same(f"closeat {job} {words}", client.ask(f"closeat {job} {words}\n"), wanted)


def test_pieces_and_their_close_at_once(folder):
    """Sends and `closeat` in one write: the type is detected from all pieces, and the job is closed only if each piece was accepted once."""
    folder.two_stages(0)
    folder.write("types", "a/a string(0,abcd)\n")
    client = folder.open("q", target="a/b")

    def said(*texts):
        client.say("".join(texts))
        return [client.reply() for _ in texts]

    for words, wanted in (("f", "ok type a/a stages 2"), ("f a/b", "ok type a/b stages 1")):
        job = client.create("q")
        replies = said(f"send {job} 2\nab\n", f"send {job} 2\ncd\n", f"closeat {job} 4 {words}\n")
        same("replies", replies, ["ok bytes 2", "ok bytes 4", wanted])
        client.until_state(job, "9")
    same("printed", folder.printed(), "abcdabcd")
    job = client.create("q")
    replies = said(f"send {job} 2\nab\n", f"send {job} 65537\n{'x' * 65_537}\n", f"closeat {job} 65539 f\n")
    same("after a refused piece", replies, ["ok bytes 2", "error 7 TooLong", "error size"])
    replies = said("send 999 2\ncd\n", f"closeat {job} 4 f a/b\n")
    same("after a piece for another job", replies, ["error 5 NoJob", "error size"])
    replies = said(f"send {job} 1\nc\n", f"send {job} 1\nc\n", f"closeat {job} 3 f\n")
    same("after a piece that was sent twice", replies, ["ok bytes 3", "ok bytes 4", "error size"])
    same("it is still incoming", client.state(job), "4 job-incoming")
    same("close", client.ask(f"closeat {job} 4 f a/b\n"), "ok type a/b stages 1")
    client.until_state(job, "9")
    same("printed", folder.printed(), "abcdabcdabcc")
    client.does("disable q")
    job = client.create("q")
    replies = said(f"send {job} 2\nab\n", f"closeat {job} 2 f a/b\n", f"closeat {job} 2 f a/b\n", f"send {job} 2\ncd\n")
    same("closed once", replies, ["ok bytes 2", "ok type a/b stages 1", "error 6 NotIncoming", "error 6 NotIncoming"])
    job = client.create("q")
    replies = said(f"send {job} 2\nab\n", f"cancel {job}\n", f"closeat {job} 2 f\n")
    same("a canceled one", replies, ["ok bytes 2", "ok", "error 10 JobEnded"])


# ---- stop

def test_stops(folder):
    """`stop` cancels a job and terminates its child, and nothing else."""
    client = folder.open("a", "b", policy="retry-job", scheme="hangs")
    jobs = [client.submit(name) for name in ("a", "b", "a")]
    until("two run", lambda: len(folder.read("pids").split()) == 2)
    began = time.time()
    client.does(f"stop {jobs[0]}")
    same("it is canceled at once", client.state(jobs[0])[0], "7")
    until("one has ended", lambda: [is_there(pid) for pid in folder.read("pids").split()[:2]].count(False) == 1)
    holds("before it would be killed", time.time() - began < 9)
    until("the next one of the queue", lambda: client.state(jobs[2])[0] == "5")
    same("the other runs", client.state(jobs[1])[0], "5")
    waiting = client.submit("a")
    same("a waiting one", (client.ask(f"stop {waiting}\n"), client.state(waiting)[0]), ("ok", "7"))
    for job in (999, waiting):
        same(f"stop {job}", client.ask(f"stop {job}\n"), client.ask(f"cancel {job}\n"))
    client.does(*(f"stop {job}" for job in jobs[1:]))
    until("all have ended", lambda: not any(is_there(pid) for pid in folder.read("pids").split()))


# ---- the log

def test_log_of_events(folder):
    """The log has a line for each event that matters, with the job, the queue, the user and the cause, so that it answers later what happened."""
    client = folder.open("q", scheme="ends")
    folder.queue(client, "fails", 1, "abort-job", scheme="ends")
    folder.queue(client, "late", scheme="ends")
    for command in ("disable q", "reject q", "accept q", "disable late"):
        same(command, client.ask(f"{command}\n"), "ok")
    printed = client.submit("q")
    client.does(f"hold {printed} {LATER}", f"release {printed}", "enable q")
    client.until_state(printed, "9")
    failed, canceled = client.submit("fails"), client.create("late")
    client.until_state(failed, "8")
    client.does(f"cancel {canceled}")
    moment = int(time.time()) + 1_000
    late = client.create("late", by=moment)
    client.finish(late)
    client.does(f"clock {moment + 1}", f"purge {canceled}")
    same("a refused one", client.ask("cancel 999\n").split()[0], "error")
    closed = f"closed ({TYPE})"
    wanted = {
        f"job {printed} on q by u": ["created", closed, f"held (until {LATER})", "released", "started (attempt 1)", "completed"],
        f"job {failed} on fails by u": ["created", closed, "started (attempt 1)", "aborted (backend-failed)"],
        f"job {canceled} on late by u": ["created", "canceled"],
        f"job {late} on late by u": ["created", closed, "canceled (not started in time)"],
        "queue q": ["added", "stopped", "rejects jobs", "accepts jobs", "started"],
        "queue fails": ["added"],
        "queue late": ["added", "stopped"],
    }
    until("the last line", lambda: "(not started in time)" in folder.log())
    found = {}
    for line in folder.log().splitlines():
        name, _, what = line.removeprefix("spool: ").partition(": ")
        if name.startswith("queue ") or " by u" in name:
            found.setdefault(name, []).append(what)
    same("the lines", found, wanted)


# ---- changes

def subject(line):
    """What a line of a listing or a notice is about."""
    words = line.split()
    return tuple(words[1:3]) if words[0] == "gone" else tuple(words[:2])


def table(client):
    """The lines of all jobs and queues."""
    return {subject(line): line for line in client.listing("jobs\n") + client.listing("queues\n")}


class Mirror:
    """A client that watches, and what it knows of the table."""

    def __init__(self, folder):
        self.client = Client(folder)
        self.client.does("watch")
        self.known, self.lines = {}, []

    def read(self):
        """Reads what it has been sent so far. Returns the lines."""
        lines = self.client.told()
        for line in lines:
            if line == "missed" or line.startswith("change "):
                continue
            if line.startswith("gone "):
                self.known.pop(subject(line), None)
            else:
                self.known[subject(line)] = line
        return lines

    def differences(self, client):
        """What differs between the copy and the table, after the last change has been read."""
        end = time.time() + LONGEST
        while True:
            holds("nothing was missed", "missed" not in self.read())
            found = table(client)
            wrong = {key: (self.known.get(key), found.get(key)) for key in {*self.known, *found} if self.known.get(key) != found.get(key)}
            if not wrong or end < time.time():
                return wrong


# What each_change_is_told does, some more often.
KINDS = ["submit"] * 8 + ["create", "hold", "release", "cancel", "stop", "end", "purge", "info", "disable", "reject"] + ["createby", "clock", "enable", "accept"] * 3


def test_each_change_is_told(folder):
    """What a watching client is sent keeps its copy of the table the same, whatever changes the table."""
    folder.two_stages(0)
    client, chance = folder.open(), random.Random(69)
    mirror = Mirror(folder)
    mirror.known = table(client)
    queues = ["ok", "fails", "absent", "two", "stopped"]
    folder.queue(client, "ok", 0, scheme="ends")
    folder.queue(client, "fails", 1, "stop-printer", scheme="ends")
    folder.queue(client, "absent", policy="abort-job", scheme=MISSING)
    folder.queue(client, "two", target="a/b")
    folder.queue(client, "stopped")
    client.does("disable stopped")
    jobs, moment = [], int(time.time())
    for step in range(300 if folder.is_long else 120):
        kind = chance.choice(KINDS)
        queue, job = chance.choice(queues), chance.choice(jobs) if jobs else 1
        if kind in ("submit", "create", "createby"):
            by = f" {moment + chance.randrange(60)}" if kind == "createby" else ""
            reply = client.ask(f'{"createby" if by else "create"} {queue} u "t{step}" 1 50 ""{by}\n')
            if reply.startswith("ok"):
                jobs.append(int(reply.split()[2]))
                if kind != "create":
                    client.ask(b"send %d 2\nx\n\n" % jobs[-1])
                    client.ask(f"close {jobs[-1]} f{'.x' if queue == 'two' else ''}\n")
        elif kind == "hold":
            client.ask(f"hold {job} {chance.choice(['indefinite', moment + chance.randrange(300)])}\n")
        elif kind == "info":
            client.ask(f'info {queue} "i{step}" "l"\n')
        elif kind == "clock":
            moment += chance.randrange(60)
            client.ask(f"clock {moment}\n")
        elif kind in ("enable", "disable", "accept", "reject"):
            client.ask(f"{kind} {queue}\n")
        else:
            client.ask(f"{kind} {job}\n")
        if step % 20 == 19:
            same(f"the differences of the copy after {step + 1} commands", mirror.differences(client), {})
    states = [state[0] for state in client.states().values()]
    print(f"  {len(jobs)} jobs, in the states {''.join(sorted(set(states)))}; the copy was the same after each 20 commands")
    holds("enough was done", len(jobs) >= 40)


def test_changes_within_a_tick(folder):
    """A stage that begins and ends in one tick, a clock that cancels two late jobs, and the end of a job of two stages are told."""
    folder.two_stages(0)
    client = folder.open("absent", policy="abort-job", scheme=MISSING)
    folder.queue(client, "two", target="a/b")
    folder.queue(client, "late")
    client.does("disable late")
    for round_number in range(5):
        mirror = Mirror(folder)
        client.does("disable absent")
        jobs = [client.submit("absent") for _ in range(2)]
        mirror.read()
        client.does("enable absent")
        client.until_ended(jobs, "8")
        lines = mirror.read()
        for job in jobs:
            same(f"the last line about job {job}", [line.split()[3:5] for line in lines if subject(line) == ("job", str(job))][-1:], [["8", "backend-failed"]])
            holds("the log names its end", f"job {job} on absent by u: aborted (" in folder.log())
        same("the queue", mirror.known[("queue", "absent")].split()[2], "3")
        # A job of two stages.
        job = client.submit("two", stages=2, name="f.x")
        client.until_state(job, "9")
        lines = mirror.read()
        same("the end of two stages", [line.split()[3] for line in lines if subject(line) == ("job", str(job))][-1:], ["9"])
        # Two jobs that are late.
        moment = int(time.time()) + 10_000 * (round_number + 1)
        late = []
        for _ in range(2):
            job = client.create("late", by=moment)
            client.finish(job)
            late.append(job)
        mirror.read()
        client.does(f"clock {moment + 1}")
        ended = [client.state(job) for job in late]
        holds(f"both have ended: {ended}", all(state[0] in "78" for state in ended))
        lines = mirror.read()
        told = {subject(line): " ".join(line.split()[3:5]) for line in lines}
        same("both are told", [told.get(("job", str(job))) for job in late], ended)
        mirror.client.close()


def test_nothing_else_is_told(folder):
    """A refused command is told to nobody, and a change names only its job or queue."""
    client = folder.open("q", "other", stopped=True)
    job, incoming = client.submit("q"), client.create("q")
    mirror = Mirror(folder)
    refused = [
        "cancel 999\n", "hold 999 indefinite\n", "release 999\n", f"release {job}\n", "end 999\n", f"end {job}\n", "stop 999\n", "send 999 1\nx\n",
        f"send {job} 1\nx\n", "close 999 f\n", f"close {job} f\n", "close 999 f a/b\n", f"queue q slow:/0 {TYPE} retry-job 0 0\n", "accept none\n", "disable none\n",
        'info none "a" "b"\n', f"purge {job}\n", "purge 999\n", "abandon 999\n", 'create none u "t" 1 50 ""\n', "job 999\n", "queue none\n",
        "nonsense\n", "clock 99999999999999999999\n",
    ]
    for command in refused:
        client.say(command)
        reply = client.reply()
        holds(f"{command!r} is refused: {reply}", reply.startswith("error"))
        same(f"what is told after {command!r}: {reply}", mirror.read(), [])
    for question in ("jobs\n", "queues\n", f"job {job}\n", "queue q\n", "list\n", "incoming\n", "find x\n"):
        client.say(question)
        client.rest_of_listing()
    same("after questions", mirror.read(), [])
    for command, wanted in (
        (f"hold {job} indefinite\n", ("job", str(job))), ("reject other\n", ("queue", "other")), ('info q "a" "b"\n', ("queue", "q")),
        (f"cancel {incoming}\n", ("job", str(incoming))),
    ):
        same(command, client.ask(command), "ok")
        lines = mirror.read()
        same(f"the subjects after {command!r}", {subject(line) for line in lines}, {wanted})


# ---- changes by number

def watch_from(folder, number):
    """A client that watches from a change on, the lines that it is sent at first, and the number of the last change."""
    client = Client(folder)
    client.does(f"watch {number}")
    lines, change = until_change(client)
    return client, lines, change


def until_change(client):
    *lines, last = client.read_to("change ")
    return lines, int(last.split()[1])


def test_changes_by_number(folder):
    """`watch N` goes on after change N: each job and queue that has changed since, as it is now. A number that is not known is `missed`."""
    client = folder.open("q", stopped=True)
    watcher, lines, first = watch_from(folder, 0)
    same("a number that was never given", lines, ["missed"])
    job = client.create("q")
    lines, second = until_change(watcher)
    holds("the number grows", first < second)
    same("the change", lines, [line for line in client.listing("jobs\n") if subject(line) == ("job", str(job))])
    watcher.close()
    client.finish(job)
    other = client.create("q")
    client.does("reject q", f"hold {job} indefinite")
    watcher, lines, third = watch_from(folder, second)
    same("what has changed since", {subject(line): line for line in lines}, table(client))
    same("each once", len(lines), 3)
    watcher.close()
    watcher, lines, fourth = watch_from(folder, third)
    same("nothing more", (lines, fourth), ([], third))
    client.does(f"release {job}")
    lines, fifth = until_change(watcher)
    same("it goes on", [subject(line) for line in lines], [("job", str(job))])
    same("a number to come", watch_from(folder, fifth + 1)[1], ["missed"])
    same("a client that watches already", watcher.ask(f"watch {third}\n"), "ok")
    same("it is sent them again", [subject(line) for line in until_change(watcher)[0]], [("job", str(job))])
    same("purged", (client.ask(f"cancel {other}\n"), client.ask(f"purge {other}\n")), ("ok", "ok"))
    lines = watch_from(folder, fifth)[1]
    same("a job that has gone", lines, [f"gone job {other}"])
    plain = Client(folder)
    plain.does("watch")
    client.does("accept q")
    same("no numbers without one", [plain.reply().split()[0], plain.says_nothing()], ["queue", True])
    last = watch_from(folder, 0)[2]
    folder.kill()
    folder.start()
    for number in (first, second, fifth, last):
        same(f"change {number} after a restart", watch_from(folder, number)[1], ["missed"])
    for bad in ("x", "-1", "1 2", "99999999999999999999"):
        same(f"watch {bad}", Client(folder).ask(f"watch {bad}\n"), "error syntax")


def test_changes_that_are_forgotten(folder):
    """The last 4,096 changes are known."""
    folder.size = 67_108_864
    client = folder.open("q")
    job = client.create("q")
    before = watch_from(folder, 0)[2]
    for begun in range(0, 4_096, 64):
        client.say("".join(f"hold {job} {LATER + number}\n" for number in range(begun, begun + 64)))
        same("hold", {client.reply() for _ in range(64)}, {"ok"})
    watcher, lines, last = watch_from(folder, before)
    same("all are known", ([subject(line) for line in lines], last - before), ([("job", str(job))], 4_096))
    watcher.close()
    client.does(f"hold {job} {LATER}")
    same("one more", (watch_from(folder, before)[1], len(watch_from(folder, before + 1)[1])), (["missed"], 1))
