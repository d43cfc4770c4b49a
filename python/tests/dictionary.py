"""A client of Redis that keeps its keys in a dictionary, and what the program itself prints."""

import json
import subprocess

import bevtragi


def said_by(words, given):
    """What the program itself prints."""
    return subprocess.run([bevtragi.program().path, *words], input=given, stdout=subprocess.PIPE,
                          check=True).stdout


def stored(run_number, task, status, result):
    """What a worker stores of a task."""
    number = f"{run_number[:8]}-{run_number[8:12]}-8{run_number[12:15]}-8{run_number[15:18]}" \
             f"-{run_number[18:]}{task:08x}"
    return json.dumps({"status": status, "task_id": number, "result": result})


class Dictionary:
    """What is asked for by another key than it was stored by isn't found. `commands` are the words
    of each command."""

    def __init__(self):
        self.keys, self.commands = {}, []

    def execute_command(self, *words):
        self.commands.append(words)

    def mget(self, keys):
        return [self.keys.get(key) for key in keys]

    def store(self, run_number, task, status, result, prefix="", text=None):
        """Stores what a worker does, or another text."""
        line = stored(run_number, task, status, result)
        key = f"{prefix}celery-task-meta-{json.loads(line)['task_id']}"
        self.keys[key] = line if text is None else text
