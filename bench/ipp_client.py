"""A client of CUPS or of the IPP front, which keeps its connection over a Unix socket between requests (IPP over HTTP/1.1)."""
import socket

from harness import ipp
from harness.checks import holds, LONGEST
from harness.ipp import attribute, CREATE_JOB, MIME, NAME, PRINT_JOB, SEND_DOCUMENT

# The beginning of the attribute that has the number of a job.
JOB_NUMBER = b"\x21\x00\x06job-id\x00\x04"

TITLE = attribute(NAME, "job-name", "t")
FORMAT = attribute(MIME, "document-format", "application/octet-stream")


class Connection(ipp.Connection):
    def __init__(self, path):
        super().__init__(socket.socket(socket.AF_UNIX))
        self.connection.settimeout(LONGEST)
        self.connection.connect(path)

    def close(self):
        self.connection.close()

    def until(self, mark):
        """The next octets up to a mark, which is skipped."""
        while mark not in self.held:
            holds("the reply is whole", self.more())
        found, self.held = self.held.split(mark, 1)
        return found

    def reply(self):
        """The status and the content of the next reply, which may have come in chunks."""
        status, content = super().reply()
        if content:
            return status, content
        while size := int(self.until(b"\r\n"), 16):
            while len(self.held) < size + 2:
                holds("the reply is whole", self.more())
            content, self.held = content + self.held[:size], self.held[size + 2 :]
        self.until(b"\r\n")
        return status, content

    @staticmethod
    def request(operation, queue, *attributes, length):
        """A request whose document, of this length, follows."""
        body = ipp.message(operation, f"ipp://localhost/printers/{queue}", *attributes, user="ann", version=(2, 0))
        head = f"POST /printers/{queue} HTTP/1.1\r\nHost: localhost\r\nContent-Type: application/ipp\r\nContent-Length: {len(body) + length}"
        return head.encode() + b"\r\n\r\n" + body

    def begin(self, queue, length):
        """Sends a Print-Job without its document, which has this length."""
        self.say(self.request(PRINT_JOB, queue, TITLE, FORMAT, length=length))

    def exchange(self, operation, queue, *attributes, document=b""):
        """The message of a reply."""
        self.say(self.request(operation, queue, *attributes, length=len(document)) + document)
        status, reply = self.reply()
        holds(f"the server accepts a request: {status} {reply[:80]!r}", status == 200 and reply[2] == 0)
        return reply

    def submit(self, queue, document):
        """Creates a job by one request, which the server has accepted when it replies."""
        self.exchange(PRINT_JOB, queue, TITLE, FORMAT, document=document)

    @classmethod
    def print_job(cls, queue, document):
        """The request of `submit`."""
        return [cls.request(PRINT_JOB, queue, TITLE, FORMAT, length=len(document)) + document]

    @classmethod
    def create_job(cls, queue, document):
        """The two requests of the program lp for a job, whose number is 0 in the second request."""
        last = attribute(ipp.INTEGER, "job-id", 0) + FORMAT + attribute(ipp.BOOLEAN, "last-document", 1)
        return [cls.request(CREATE_JOB, queue, TITLE, length=0), cls.request(SEND_DOCUMENT, queue, last, length=len(document)) + document]

    @classmethod
    def get_printer(cls, queue):
        return [cls.request(ipp.GET_PRINTER, queue, length=0)]
