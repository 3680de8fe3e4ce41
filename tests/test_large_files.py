"""Files of types, conversions and programs of thousands of lines, and queries of URIs."""
import pytest

from harness.checks import same
from harness.large_run import ask_jobs, bytes_of, DONE, listed, same_file, Script, TYPE, within
from harness.programs import TOOLS

pytestmark = [pytest.mark.alone, pytest.mark.needs("spool_shell", "spool_tools")]

LINES = 5_000
BAD = 1_000


def direct_cost(number):
    """The cost of the one conversion from a type to the target."""
    return number % 20


# Through the type in the middle it has this cost, in two conversions.
AROUND = 5 + 7


def filters_of(number):
    """The filters of the cheapest chain, and of two with the same cost those of the shorter one."""
    return [f"direct{number}"] if direct_cost(number) <= AROUND else ["inward", "outward"]


def write_rules(place):
    """Types that are known by the end of a name, each with two chains to the target, and lines that cannot be read."""
    types, convs = [], []
    for number in range(LINES):
        types.append(f"t/t{number} s{number} priority({number % 201})")
        convs.append(f"t/t{number} t/target {direct_cost(number)} direct{number}")
        convs.append(f"t/t{number} t/middle 5 inward")
    convs.append("t/middle t/target 7 outward")
    types += ["t/t regex(0,x)", "t"] * (BAD // 2)
    convs += ["t/t t/u 10001 f", "t/t t/u 10"] * (BAD // 2)
    place.write("types", "".join(line + "\n" for line in types).encode())
    place.write("convs", "".join(line + "\n" for line in convs).encode())


def warnings():
    """The warnings about the lines that cannot be read."""
    lines = []
    for first, kinds in ((LINES, ("UnknownRule", "BadType")), (2 * LINES + 1, ("BadNumber", "BadLine"))):
        lines += [f"spool: warning {first + turn + 1} {kinds[turn % 2]}\n" for turn in range(BAD)]
    return "".join(lines).encode()


PASSES = 'echo "$PRINTER $CONTENT_TYPE $SPOOL_STAGE" >>"$0.ran"\ncat ${6:+"$6"}\n'


@within(14_000)
def test_long_files(place):
    """5,000 types, 10,001 conversions and 10,000 programs, and a thousand lines of each file that cannot be read."""
    write_rules(place)
    place.tool("backend", "spoolfile")
    place.script("filter", "inward", PASSES)
    place.lines.append(f"filter outward /bin/sh {place.at('filter-inward')}")
    for number in range(LINES):
        place.lines.append(f"filter direct{number} /bin/sh {place.at('filter-inward')}")
        place.lines.append(f"backend b{number} /bin/sh {place.at('filter-inward')}")
    chosen = [0, 1, 12, 13, 19, 2_500, LINES - 7, LINES - 1]
    script = Script()
    for job, number in enumerate(chosen, 1):
        script.ask(f"queue q{job} spoolfile:{place.at('printed')}-{job} t/target abort-job", "ok")
        script.submit(job, f"q{job}", bytes_of(job, 1_000), name=f"page.S{number}", closed=f"t/t{number} stages {len(filters_of(number)) + 1}")
    last = len(chosen) + 1
    script.ask(f"queue last b{LINES - 1}:/x t/t0 abort-job", "ok")
    script.submit(last, "last", name="page.s0", closed="t/t0 stages 1")
    script.ask("drain 10", "ok rounds 4")
    jobs = [listed(job, f"q{job}", DONE, 1_000) for job in range(1, last)]
    ask_jobs(script, [*jobs, listed(last, "last", DONE, 0)])
    place.print_all(script, errors=warnings())
    for job in range(1, last):
        same_file(place, f"printed-{job}", bytes_of(job, 1_000))
    ran = [(job, number, stage) for job, number in enumerate(chosen, 1) for stage in range(len(filters_of(number)))]
    wanted = [f"q{job} t/t{number} {stage + 1}" for job, number, stage in ran]
    found = place.read("filter-inward.ran").decode().splitlines()
    same("the arguments of the programs", sorted(found), sorted([*wanted, "last t/t0 1"]))


ASKS = """
import os, socket, sys
line = socket.socket(socket.AF_UNIX, socket.SOCK_STREAM)
line.connect(os.environ["SPOOL_SIDE"])
def ask(request):
    line.sendall(bytes([request, 0, 0, 0]))
    answer = b""
    while len(answer) < 4 or len(answer) < 4 + int.from_bytes(answer[2:4], "big"):
        answer += line.recv(4096)
    return answer[4:]
with open(sys.argv[0] + "." + os.environ["PRINTER"], "wb") as file:
    file.write(ask(4) + b" " + ask(5))
"""


@within(32_000)
def test_long_queries(place):
    """The contents of a device's URI: an id of 1,000 bytes and one more, and 64 options and one more."""
    place.write("asks", ASKS.encode())
    place.lines.append(f"backend a /bin/sh {place.at('wrapper')}")
    place.write("wrapper", f'exec python3 -ES {place.at("asks")}\n'.encode())
    place.lines.append(f"side {TOOLS} side-end")
    # The last of 64 options sets the state. With one more option all have their defaults.
    options = "&".join(f"o{n}=v" for n in range(62)) + "&id=x"
    queries = {
        "id=" + "i" * 1_000: b"i" * 1_000 + b" \x01",
        "id=" + "i" * 1_001: b" \x01",
        "id=" + "%41" * 333: b"A" * 333 + b" \x01",
        f"{options}&state=9": b"x \x09",
        f"{options}&o=v&state=9": b" \x01",
    }
    script = Script()
    for job, query in enumerate(queries, 1):
        script.ask(f"queue q{job} a:?{query} {TYPE} abort-job", "ok")
        script.submit(job, f"q{job}")
    script.ask("round", f"ok started {len(queries)} finished {len(queries)}")
    ask_jobs(script, [listed(job, f"q{job}", DONE, 0) for job in range(1, len(queries) + 1)])
    place.print_all(script)
    for job, wanted in enumerate(queries.values(), 1):
        same_file(place, f"asks.q{job}", wanted)
