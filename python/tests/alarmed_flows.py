"""Chords in chords whose bodies have alarms, of the tasks in user_tasks.py: where Celery's workers
are told that a header failed, and where not. FLOWS has each by its name."""

from celery import chord, group

from user_tasks import five, four, last, one, six, step_old_alarm, three, two


def alarmed(task):
    return task.on_error(step_old_alarm.s())


def inner_header_fails():
    """A chord as a member."""
    return chord([chord([one.s(1), two.s(2)], three.s()), four.s(4)], alarmed(five.s())) | last.s()


def chain_as_member():
    """A chain as a member."""
    return chord([one.s(1) | two.s() | three.s(), four.s(4)], alarmed(five.s())) | last.s()


def chord_after_a_task():
    """A chain that ends in a chord as a member."""
    inner = chord([two.s(), three.s()], four.s())
    return chord([one.s(1) | inner, five.s(5)], alarmed(six.s()))


def chain_that_begins_with_a_chord():
    """A chord, and more after it, as a member."""
    inner = chord([one.s(1), two.s(2)], three.s()) | four.s()
    return chord([inner, five.s(5)], alarmed(six.s()))


def body_that_is_a_group():
    """A group as the body."""
    return chord([one.s(1), two.s(2)], group(alarmed(three.s()), four.s()))


def body_that_is_a_chord():
    """A chord as the body of a chord."""
    return chord([one.s(1), two.s(2)], chord([alarmed(three.s()), four.s()], alarmed(five.s())))


def chord_after_a_chord():
    """Two chords one after the other."""
    return group(one.s(1), two.s(2)) | alarmed(three.s()) | group(four.s(), five.s()) | \
        alarmed(six.s())


def chord_in_a_chord_in_a_chord():
    """Three deep."""
    deep = chord([one.s(1), two.s(2)], alarmed(three.s()))
    return chord([chord([deep, four.s(4)], alarmed(five.s())), six.s(6)], alarmed(last.s()))


FLOWS = {it.__name__: it for it in (
    inner_header_fails, chain_as_member, chord_after_a_task, chain_that_begins_with_a_chord,
    body_that_is_a_group, body_that_is_a_chord, chord_after_a_chord, chord_in_a_chord_in_a_chord)}
