"""A run told in words: each step and what it changed, its end, what was learned, why each rule does not match."""
from .calls import small_number
from .model import Model
from .refusals import HALTED, MEANINGS, Refused
from .run import Run
from .stores import chunk_text
from .wording import printable

STEPS = 1000
REQUEST = 1  # the kind of an action that asks for a fact


def explain(run, steps=STEPS, *, fresh=False):
    """Tells the next steps of a run, or of a model from its opening. The run itself is not moved.

    With `fresh` no table is kept, as with `Model.open`; what is told is the same. A model is lent an empty store, as by the
    printing program, so that its run learns; a run goes on with the store that it has, or with none.

    >>> import jirvuntsag as jv
    >>> print(explain(jv.Model.load("examples/counting.model"), steps=2))
    at 0 ms
        goal       count current=1 target=3
        retrieval  empty
    at 50 ms  start has fired
        retrieval  follows first=1 second=2, in 100 ms
    at 150 ms  after a wait of 100 ms
        retrieval  follows first=1 second=2
    <BLANKLINE>
    It ends at 150 ms after 2 steps: these are all that were asked for (end 0).
    <BLANKLINE>
    The buffers then:
        goal       count current=1 target=3
        retrieval  follows first=1 second=2
    <BLANKLINE>
    The rules then:
        start  does not match: retrieval holds follows, not chunk
        go-on  matches with number=1 next=2 (it has not fired)
        stop   does not match: target of goal is 3, not 1 (it has not fired)
    <BLANKLINE>
    """
    if not isinstance(run, (Model, Run)):
        raise TypeError(f"a Model or a Run is explained, not a {type(run).__name__}")
    run = run.open(fresh=fresh) if isinstance(run, Model) else run.copy(fresh=fresh or run.fresh)
    steps = small_number(steps, "the steps asked")
    start = [f"at {run.clock:,} ms", *_held(run)]
    events, steps_told, learned, number = _steps(run, steps)
    end = [_end(run, len(events), number), "", "The buffers then:", *_held(run), "", *learned, "The rules then:"]
    lines = [*start, *steps_told, "", *end, *_rules(run, {event.rule for event in events})]
    return "".join(f"{printable(line)}\n" for line in lines)


def _steps(run, steps):
    """Makes the steps: their events, the lines that tell them, those of what they learned, and the number that they end by."""
    events, lines, learned, number = [], [], [], None
    before, known = dict(run.buffers), _known(run)
    try:
        for event in run.steps(steps):
            events.append(event)
            lines += [_step(run, event), *_changed(run, before, _asked(run, event))]
            learned += _learned(run, event, known)
            before, known = dict(run.buffers), _known(run)
    except Refused as refused:
        number = refused.number
    if number is None:
        number = HALTED if len(events) < steps else 0
    return events, lines, ["Learned, in this order:", *learned, ""] if learned else [], number


def _known(run):
    """How many facts are in the store of a run; none if it is lent none."""
    return 0 if run.store is None else len(run.store)


def _learned(run, event, known):
    """A line for each fact that a step has learned."""
    facts = [] if _known(run) == known else [*run.store][known:]
    return [f"    at {event.clock:,} ms  {chunk_text(fact)}" for fact in facts]


def _step(run, event):
    """A step in words."""
    told = f"after a wait of {event.ms:,} ms" if event.rule is None else f"{_rule(run, event.rule)} has fired"
    return f"at {event.clock:,} ms  {told}"


def _rule(run, number):
    return run.model.vocabulary.rules.text(number)


def _buffers(run):
    """What each buffer is called, all as wide as the widest, with what it holds."""
    buffers = run.model.vocabulary.buffers
    width = max((len(buffers.text(number)) for number in range(len(buffers))), default=0)
    return [(f"    {buffers.text(number):{width}}  ", buffer) for number, buffer in enumerate(run.buffers.values())]


def _held(run):
    """A line for each buffer."""
    return [f"{name}{_told(run, buffer)}" for name, buffer in _buffers(run)]


def _asked(run, event):
    """The buffers that the rule that has fired asks a fact for."""
    actions = () if event.rule is None else run.model.shape.rules[event.rule].actions
    return {action.buffer for action in actions if action.kind == REQUEST}


def _changed(run, before, asked):
    """A line for each buffer that holds another chunk than before, or in error or not as before, whose chunk has arrived, or
    that was asked a fact for."""
    lines = []
    for number, ((name, now), old) in enumerate(zip(_buffers(run), before.values())):
        if number in asked or now._replace(delay=now.visible) != old._replace(delay=old.visible):
            failed = number in asked and now.error
            lines.append(f"{name}{_told(run, now)}{': no fact fits the request' if failed else ''}")
    return lines


def _is_empty(run, buffer):
    return run.model.vocabulary.types.number(buffer.type) == 0


def _told(run, buffer):
    """What a buffer holds, and that it is empty because a request has failed."""
    empty = "empty (error)" if buffer.error else "empty"
    held = empty if _is_empty(run, buffer) else str(buffer._replace(delay=0))
    return held if buffer.visible else f"{held}, in {buffer.delay:,} ms"


def _end(run, made, number):
    """Why there are no more steps."""
    counted = f"{made:,} step{'' if made == 1 else 's'}"
    reasons = {0: "these are all that were asked for", HALTED: "no rule matches, and nothing is pending"}
    return f"It ends at {run.clock:,} ms after {counted}: {reasons.get(number, MEANINGS[number])} (end {number})."


def _rules(run, fired):
    """A line for each rule: that it matches, or the first test or query that does not hold; and whether it has fired."""
    matches = {match.rule: match for match in run.matching()}
    count = len(run.model.vocabulary.rules)
    width = max((len(_rule(run, number)) for number in range(count)), default=0)
    lines = []
    for number in range(count):
        if number in matches:
            values = " ".join(f"{variable}={value}" for variable, value in matches[number].values.items())
            told = f"matches{' with ' + values if values else ''}"
        else:
            told = f"does not match: {run.why_not(number)}"
        lines.append(f"    {_rule(run, number):{width}}  {told}{'' if number in fired else ' (it has not fired)'}")
    return lines or ["    there are none"]
