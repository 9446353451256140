"""Exchanges with `patterns server` in which each request for memory is refused in turn, and random sessions in which some are:
`.ci/refused_messages.py PROGRAM REFUSE [COUNT [SEED]]`, for `.ci/refused-memory`, where REFUSE is the built `refuse.c`, and COUNT the number
of sessions.

The server gets all messages of an exchange at once. It has to answer each request once, with the result that it has without a refusal, or that
memory ran out, without an id if the request was not read; or to end with status 3, after a part of its answers. After a notification that is
not done, or a request that begins or ends the session, it may answer otherwise.
"""
import json
import os
import random
import re
import subprocess
import sys
import tempfile
from concurrent.futures import ThreadPoolExecutor
from io import BytesIO
from itertools import count
from pathlib import Path
from typing import NamedTuple, Optional

from exchanges import EXCHANGES, message, parts_of, words_of
from programs import decoded
from random_messages import session

INTERNAL = -32603
SESSIONS = 200
# How many requests for memory a session has at most of which one is refused.
REQUESTS = 1200


class Session(NamedTuple):
    """What a server wrote and returned, and whether a request for memory was refused."""
    messages: list
    status: int
    is_refused: bool


def played(program: str, sent: bytes, env: dict, arguments: list = ()) -> Session:
    """What comes of messages to a server with these arguments."""
    with tempfile.TemporaryDirectory() as folder, tempfile.TemporaryFile() as refused:
        # The shell itself has none of its requests refused.
        words = ["env", *(f"{name}={value}" for name, value in env.items()), program, "server", *arguments]
        command = ["bash", "-c", f'exec 9<&{refused.fileno()}; exec "$@"', "bash", *words]
        got = subprocess.run(command, cwd=folder, input=sent, pass_fds=[refused.fileno()], capture_output=True, check=False)
        stream, messages = BytesIO(got.stdout), []
        while (one := message(stream)) is not None:
            messages.append(json.loads(one))
        return Session(messages, got.returncode, refused.seek(0, os.SEEK_END) > 0)


def answers(session: Session) -> list:
    """The answers to requests, by their ids."""
    return [it for it in session.messages if "id" in it]


def code_of(answer: dict) -> Optional[int]:
    """The code of the error, if it is one."""
    return answer.get("error", {}).get("code")


def bounds(sent: bytes) -> set:
    """The ids of the requests that begin or end the session."""
    found = re.findall(rb'"id"\s*:\s*([^,]+),\s*"method"\s*:\s*"(?:initialize|shutdown)"', sent)
    return {json.loads(it) for it in found}


def paired(own: list, wanted: list) -> Optional[list]:
    """Each answer with the wanted one of its id, in order; None if one is not wanted."""
    pairs, left = [], iter(wanted)
    for it in own:
        other = next((one for one in left if one["id"] == it["id"]), None)
        if other is None:
            return None
        pairs.append((it, other))
    return pairs


def is_right(sent: bytes, got: Session, wanted: Session) -> bool:
    """Whether the session with a refusal is as it has to be."""
    own, all_wanted = ([it for it in answers(session) if it["id"] is not None] for session in (got, wanted))
    unknown = [it for it in answers(got) if it["id"] is None and it["error"]["code"] == INTERNAL]
    pairs = paired(own, all_wanted)
    if pairs is None or got.status == 3:
        return pairs is not None
    if len(all_wanted) - len(own) > len(unknown):
        return False
    undone = [it["id"] for it in own if code_of(it) == INTERNAL]
    is_changed = unknown or bounds(sent) & set(undone) or any(it.get("method") == "window/showMessage" for it in got.messages)
    same = all(it == other or it["id"] in undone for it, other in pairs)
    return bool(is_changed) or got.status == wanted.status and same


def refused(program: str, library: str, file: Path) -> int:
    """Refuses each request in an exchange, and returns how many there were."""
    text = decoded(file.read_bytes())
    sent = b"".join(it.sent for it in parts_of(text) if it.sent and not it.file)
    wanted = played(program, sent, {}, words_of(text))
    for number in count(1):
        got = played(program, sent, {"REFUSED_REQUEST": str(number), "LD_PRELOAD": library}, words_of(text))
        assert is_right(sent, got, wanted), (file.name, number, got.status, got.messages)
        if not got.is_refused:
            return number - 1


def refused_at_random(program: str, library: str, seed: int) -> int:
    """Refuses some requests, each in a session of its own, and returns how many were refused."""
    rng = random.Random(seed)
    sent = session(rng)
    wanted, total = played(program, sent, {}), 0
    for number in (rng.randrange(1, REQUESTS + 1) for _ in range(4)):
        got = played(program, sent, {"REFUSED_REQUEST": str(number), "LD_PRELOAD": library})
        assert is_right(sent, got, wanted), (sent, number, got.status, got.messages)
        total += got.is_refused
    return total


def main() -> int:
    """Plays all exchanges, and sessions."""
    program, library = sys.argv[1:3]
    total, first = (int(sys.argv[at]) if len(sys.argv) > at else it for at, it in ((3, SESSIONS), (4, 1)))
    files = sorted(EXCHANGES.glob("*.txt"))
    with ThreadPoolExecutor(os.cpu_count()) as pool:
        counts = list(pool.map(lambda it: refused(program, library, it), files))
        some = sum(pool.map(lambda it: refused_at_random(program, library, it), range(first, first + total)))
    print(f"{len(files)} exchanges with a server: {sum(counts)} requests refused; {total} sessions: {some}")
    return 0 if some else 1


if __name__ == "__main__":
    sys.exit(main())
