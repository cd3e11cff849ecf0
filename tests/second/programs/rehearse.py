"""What the rehearsal programs are compared on: a fifth of the certificate programs' inputs. The file that comes back is of the same version and asks the
same questions, masks and all, by `job show`."""
from itertools import islice

import certify  # which finds job
import job


def questions(data):
    """The lines of `job show` but for the answers."""
    return [line for line in job.show(data)[0].splitlines() if not line.startswith(b'  answer')]


def fault(data, printed):
    if not certify.is_job_file(data):
        return certify.fault(data, printed)
    asked = questions(data)
    if printed == b'R 14\n':
        # an entry has at most ten bytes and 140 words, so that a short file is never too long with its answers
        return 'ours turns a job file away' if 290 * len(asked) < 65536 else None
    return 'ours asks other questions' if questions(printed) != asked else None


def inputs(chance):
    return islice(certify.inputs(chance), 0, None, 5)
