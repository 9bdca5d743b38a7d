"""The sentences of faults on keys, one function for each kind of fault."""
from __future__ import annotations

from typing import List, Tuple

from . import syntax as s
from .key_faults import LINK, KeyStory, step_picture
from .picture import Picture, Way
from .since import is_about_states
from .uses import call_of, clause_entry, field_of, mentioned, right_side, use

# the message, and what is said at the fault's place
Words = Tuple[str, str]


def absent_words(story: KeyStory) -> Words:
    """The key isn't held, and must be: the object is gone, or was never there."""
    name, one = story.name, story.statement
    if story.guarded and not (set(story.names) & {n for n in story.guarded}):
        return guarded_words(story)
    since = story.since
    if story.is_end():
        promised = f"the clause of `{story.function.name}` promises to leave {name} held"
        return f"{name} is gone when `{story.function.name}` ends, but {promised}", f"{name} isn't held here"
    doing = use(one, story.names)
    if since is not None and since.statement is not None:
        gone, other = story.past(since.statement), story.object_at(since.statement)
        if isinstance(since.statement, s.Release) and isinstance(one, s.Release) and other == name:
            return f"{name} is released twice", f"{name} is gone already"
        return f"{name} {doing} after {'it' if other == name else other} {gone}", f"{name} {lost(since.statement)}"
    return never_words(story, doing)


def lost(statement: s.Statement) -> str:
    """What has become of an object whose key a statement took."""
    right = right_side(statement)
    return f"belongs to `{right.owner}` here" if isinstance(right, s.Adopt) else "is gone here"


def never_words(story: KeyStory, doing: str) -> Words:
    """The key isn't held from the start."""
    name, key, function = story.name, story.fault.key, story.function
    if story.entry is None and any(one.type.key == key for one in function.parameters):
        return f"{name} {doing}, but the clause of `{function.name}` doesn't list its key `{key}`", f"this needs the key `{key}`"
    if story.entry is not None and story.entry.mode == "given":
        return f"{name} {doing}, but `{function.name}` begins without it: its clause has `+{key}`", f"{name} isn't held here"
    return f"{name} {doing}, but it isn't held here", f"this needs the key `{key}`, which isn't held here"


def guarded_words(story: KeyStory) -> Words:
    """An adopted object is touched while its adopter isn't held."""
    guarded, owner = f"`{story.guarded[0]}`", story.name
    doing = use(story.statement, story.guarded)
    since = story.since
    if since is not None and since.statement is not None:
        here = "is gone here" if isinstance(since.statement, s.Release) else f"can be touched only while {owner} is held"
        return f"{guarded} {doing} after {owner}, which adopted it, {story.past(since.statement)}", f"{guarded} {here}"
    return f"{guarded} {doing} while {owner}, which adopted it, isn't held", f"this needs the key `{story.fault.key}`"


def lent_words(story: KeyStory) -> Words:
    """The object is lent to a focus."""
    by_guard = story.guarded and not set(story.names) & {name.text for name in mentioned(story.statement)}
    names = story.guarded if by_guard else story.names
    owner = f"{story.name}, which adopted it" if by_guard else "it"
    return (
        f"`{names[0]}` {use(story.statement, names)} while a `focus` lends {owner}",
        f"{story.name} can't be used until the `focus` ends",
    )


def state_fault_words(story: KeyStory) -> Words:
    """The object is in another state."""
    name, one = story.name, story.statement
    found, wanted = story.wrong_states(), story.asked_states(story.fault.wanted)
    is_it = "may be" if len(story.fault.found.states) > 1 else "is"
    here = f"{name} {is_it} in state {found} here"
    call = call_of(one)
    touched = field_of(one, story.names) if one else None
    if story.is_end():
        return f"`{story.function.name}` ends with {name} in state {found}, but its clause promises {wanted}", here
    if story.is_block_end():
        return f"{story.place_words()} with {name} in state {found}, but it must be {wanted} then", here
    if clause_entry(story.declarations, call, story.names):
        return f"`{call.callee}` needs {name} in state {wanted}, but it {is_it} {found}", here
    if isinstance(one, s.Release):
        return f"{name} may be released in state {wanted} only, but it {is_it} {found}", here
    if touched:
        return f"`{touched[0]}` may be touched in state {wanted} only, but {name} {is_it} {found}", here
    return f"{name} {use(one, story.names)} in state {found}, but it must be in state {wanted}", here


def held_words(story: KeyStory) -> Words:
    """The key is held, and must not be: a leak, or an object that would be lost."""
    name, one = story.name, story.statement
    if story.is_end():
        if story.entry is not None and story.entry.mode == "taken":
            promise = f"its clause promises to take it (`-{story.fault.key}`)"
            return f"{name} is still held when `{story.function.name}` ends, but {promise}", f"{name} is still held here"
        return f"{name} is never released", f"{name} is still held when {story.place_words()}".replace(" here", "")
    if story.is_block_end():
        return f"{name} is not released before its block ends", f"{name} is still held when {story.place_words()}"
    found = clause_entry(story.declarations, call_of(one), story.names)
    if found and found[1].mode == "given":
        return f"`{found[0].name}` gives {name}, which is held already", f"{name} is held already"
    return f"the key `{story.fault.key}` is held already: its object would be lost here", f"{name} is still held here"


def full_words(story: KeyStory) -> Words:
    """An owning variable has an object, and must have none."""
    name = story.name
    if story.is_end():
        return f"{name} still owns its object when `{story.function.name}` ends", f"the object of {name} would be lost here"
    if story.is_block_end():
        return f"{name} still owns its object when its block ends", f"the object of {name} would be lost here"
    return f"{name} still owns an object, which would be lost here", f"{name} must be empty here"


def empty_words(story: KeyStory) -> Words:
    """An owning variable is empty, and must have an object."""
    name, since = story.name, story.since
    doing = use(story.statement, story.names)
    if since is not None and since.statement is not None:
        return f"{name} {doing} after it {story.past(since.statement)}", f"{name} is empty here"
    return f"{name} {doing}, but it is empty", f"{name} owns no object here"


def words_of(story: KeyStory) -> Words:
    fault = story.fault
    if story.is_variable:
        return full_words(story) if fault.found.how == "full" else empty_words(story)
    if fault.found.how == "lent" and fault.wanted.how != "lent":
        return lent_words(story)
    if is_about_states(fault):
        return state_fault_words(story)
    return absent_words(story) if fault.found.how == "absent" else held_words(story)


# ---- paths that meet


def gone_words(story: KeyStory) -> str:
    """How the object is lost on the path that comes without it, as `is released`."""
    point = story.traces[0].point
    if point is None or point.statement is None:
        return "is empty" if story.is_variable else "is not held"
    return story.past(point.statement).replace("was ", "is ", 1).replace("went", "goes", 1)


def title(story: KeyStory, number: int, how: str) -> str:
    which = ("on one path", "on the other")[number]
    paths = story.fault.paths
    if number < len(paths) and not paths[number].choices:
        which += ", straight from the start,"
    return f"{which} {story.name} {how}:"


def join_picture(story: KeyStory) -> Picture:
    """The picture of paths that meet, one with the key and one without it."""
    gone = gone_words(story)
    still = "still has its object" if story.is_variable else "is still held"
    ways: List[Way] = []
    for number, found in enumerate(story.traces[:2]):
        text = story.since_words_at(found, number == 1)
        labels = story.way_labels(found, text)
        if labels or len(story.fault.paths) == 2:
            ways.append(Way(title(story, number, (gone, still)[number]), tuple(labels)))
    is_head = isinstance(story.statement, s.While)
    message = f"{story.name} {gone} on one path to this point and {still} on the other"
    if is_head:
        message = f"the loop changes whether {story.name} is {'full' if story.is_variable else 'held'}: after a turn it isn't as before it"
    mark = story.view.label(story.span(), "the paths meet here", "fault")
    return Picture(mark.source, "error", "protocol", story.fault.line, message, mark, tuple(ways), (), (), LINK)


def key_picture(story: KeyStory) -> Picture:
    """The picture of a fault on keys, without cures."""
    if story.fault.is_join:
        return join_picture(story)
    message, here = words_of(story)
    return step_picture(story, message, here, story.since_words(story.since))
