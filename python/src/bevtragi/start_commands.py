"""The command that starts a canvas, as the program writes it, with options in its messages.

The program's script puts all messages on one list of Redis. A queue is a list, and so is each
priority of a queue (kombu). So if the first tasks go to several, another script of the same shape
puts each message on its own list: all of them or nothing. Nothing of it is proved.
"""

from __future__ import annotations

import datetime
from typing import Any, Dict, List, NamedTuple

from .errors import CanvasError, hidden
from .heeding import ByNumber, with_options
from .options import Options
from .places_of_apps import Place

__all__ = ["command_with"]

__tracebackhide__ = hidden

#: It does what the program's script does (docs/CELERY.md), for several lists. Its keys are the
#: run's marker, those of the lists, and those of the sizes of chords. Its arguments are how long
#: sizes are kept, the databases of the results and of the lists, how many lists there are, the
#: sizes, each message after the number of its list, and `whole`.
SCRIPT = b"""\
if ARGV[#ARGV] ~= 'whole' then
  return redis.error_reply('CUT nothing was started: the text was cut')
end
local function at(database)
  if database ~= '' then redis.call('SELECT', database) end
end
local lists = tonumber(ARGV[4])
at(ARGV[3])
for i = 2, lists + 1 do
  local kind = redis.call('TYPE', KEYS[i]).ok
  if kind ~= 'none' and kind ~= 'list' then
    return redis.error_reply('QUEUE nothing was started: the key of a queue is no list')
  end
end
at(ARGV[2])
if redis.call('EXISTS', KEYS[1]) == 1 then
  return redis.error_reply('STARTED nothing was started: this run was started before')
end
local sizes = #KEYS - lists - 1
for i = 1, sizes do redis.call('SETEX', KEYS[lists + 1 + i], ARGV[1], ARGV[4 + i]) end
redis.call('SET', KEYS[1], 'started')
at(ARGV[3])
for i = sizes + 5, #ARGV - 1, 2 do
  redis.call('LPUSH', KEYS[1 + tonumber(ARGV[i])], ARGV[i + 1])
end
return (#ARGV - sizes - 5) / 2
"""


class Start(NamedTuple):
    """The parts of the program's command."""
    script: bytes
    marker: bytes
    queue: bytes
    sizes: List[bytes]
    setting: List[bytes]
    counts: List[bytes]
    texts: List[bytes]
    whole: bytes


def command_with(command: List[bytes], place: Place, queue: str, firsts: ByNumber, later: ByNumber
                 ) -> List[bytes]:
    """The program's command, whose messages go to this queue, with the options of the first tasks
    and of those after them."""
    start, now = _parts(command), datetime.datetime.now(datetime.timezone.utc)
    if start.queue != queue.encode():
        raise CanvasError("`canvas export` answered what can't be read: another queue")
    plain: Options = {"queue": queue}
    if not later and all(it == plain for it in firsts.values()):
        found = [(text, plain) for text in start.texts]
    else:
        found = [with_options(text, firsts, later, now) for text in start.texts]
    keys = [place.key_of(it["queue"], it.get("priority", 0)).encode() for _, it in found]
    return _command(start, [text for text, _ in found], keys)


def _parts(command: List[bytes]) -> Start:
    count = int(command[2])
    marker, queue, *sizes = command[3:3 + count]
    more = command[3 + count:]
    return Start(command[1], marker, queue, sizes, more[:3], more[3:3 + len(sizes)],
                 more[3 + len(sizes):-1], more[-1])


def _command(start: Start, texts: List[bytes], keys: List[bytes]) -> List[bytes]:
    """The program's command if all messages go on one list, and else that of the script here."""
    lists: Dict[bytes, int] = {key: at for at, key in enumerate(dict.fromkeys(keys), 1)}
    head: List[Any] = [b"EVAL", start.script if len(lists) == 1 else SCRIPT,
                       len(lists) + len(start.sizes) + 1, start.marker, *lists, *start.sizes,
                       *start.setting]
    if len(lists) == 1:
        return [*_words(head), *start.counts, *texts, start.whole]
    pairs = [it for key, text in zip(keys, texts) for it in (lists[key], text)]
    return _words([*head, len(lists), *start.counts, *pairs, start.whole])


def _words(found: List[Any]) -> List[bytes]:
    return [str(it).encode() if isinstance(it, int) else it for it in found]
