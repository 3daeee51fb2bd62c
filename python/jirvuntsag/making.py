"""New models: with other facts, utilities or openings than another, and from nothing. The packer makes every image."""
from .calls import small_number
from .packer import NotPacked, pack_text
from .rules import Fact, Rule, decimal
from .shape import Chunk, FactShape
from .states import buffer_of, chunk_words
from .symbols import Symbol
from .wording import shown

MOST_FACTS = 512
UTILITIES = range(-32_768, 32_768)


def replaced(shape, vocabulary, changes):
    """The shape of a model with changes: `facts`, `opening`, `utilities`, `failure`, each None if it stays."""
    if changes["facts"] is not None:
        shape = shape._replace(facts=_facts(changes["facts"], vocabulary))
    if changes["opening"] is not None:
        shape = shape._replace(opening=_opening(shape.opening, changes["opening"], vocabulary))
    if changes["utilities"] is not None:
        shape = shape._replace(rules=_rules(shape.rules, changes["utilities"], vocabulary))
    if changes["failure"] is not None:
        shape = shape._replace(failure=small_number(changes["failure"], "a failure latency"))
    return shape


def _facts(facts, vocabulary):
    facts = list(facts)
    if len(facts) > MOST_FACTS:
        raise ValueError(f"a model has at most {MOST_FACTS} facts, not {len(facts):,}")
    return tuple(_fact(number, fact, vocabulary) for number, fact in enumerate(facts))


def _fact(number, fact, vocabulary):
    if not isinstance(fact, Fact):
        raise TypeError(f"fact {number} is a {type(fact).__name__}, not a jv.Fact")
    activation = small_number(fact.activation, f"the activation of fact {number}")
    return FactShape(_chunk(fact, vocabulary), activation, small_number(fact.latency, f"the latency of fact {number}"))


def _chunk(chunk, vocabulary):
    """The chunk of a fact or a buffer, by numbers."""
    isa, *values = chunk_words(chunk.type, chunk.slots, vocabulary)
    return Chunk(isa, tuple(values[: len(vocabulary.slots[isa])]))


def _opening(opening, chunks, vocabulary):
    """The opening chunks, some of them replaced."""
    opening = list(opening)
    for name, members in _named(chunks, "opening chunks").items():
        buffer = buffer_of(name, members)
        _check_opening(name, buffer)
        opening[vocabulary.buffers.number(name)] = _chunk(buffer, vocabulary)
    return tuple(opening)


def _check_opening(name, buffer):
    """A buffer opens with what an image holds: a chunk alone."""
    if buffer.delay:
        raise ValueError(f"buffer '{shown(name)}' opens with a chunk that is visible: it has no delay")
    if buffer.error:
        raise ValueError(f"buffer '{shown(name)}' opens before anything is asked: it is not in error")


def _rules(rules, utilities, vocabulary):
    """The rules, some with another utility."""
    rules = list(rules)
    for name, utility in _named(utilities, "utilities").items():
        number = vocabulary.rules.number(name)
        rules[number] = rules[number]._replace(utility=_utility(utility))
    return tuple(rules)


def _utility(utility):
    if isinstance(utility, bool) or not isinstance(utility, int):
        raise TypeError(f"a utility is a whole number of thousandths, 1500 for 1.5, not a {type(utility).__name__}")
    if utility not in UTILITIES:
        raise ValueError(f"a utility is from -32,768 to 32,767 thousandths, not {shown(utility)}")
    return utility


def _named(given, what):
    if not isinstance(given, dict):
        raise TypeError(f"{what} are given as a dict by name, not as a {type(given).__name__}")
    return given


def built(types, facts, buffers, rules, failure):
    """The image and the names of a model that is made from nothing: as a text, which the packer takes."""
    lines = [f"failure latency {small_number(failure, 'a failure latency')}"]
    lines += [" ".join(["type", _word(name), *map(_word, slots)]) for name, slots in _named(types, "types").items()]
    lines += [_fact_line(number, fact) for number, fact in enumerate(facts)]
    lines += [_buffer_line(name, chunk) for name, chunk in _named(buffers, "buffers").items()]
    for rule in rules:
        lines += _rule_lines(rule)
    try:
        return pack_text("\n".join(lines))
    except NotPacked as error:
        raise NotPacked("\n".join(_with_line(told, lines) for told in str(error).split("\n"))) from None


def _with_line(told, lines):
    """A fault with the line that it lies in, which nobody has seen yet."""
    number = told.split(":")[0]
    if not number.isdigit() or not 0 < int(number) <= len(lines):
        return told
    return f"{told} (in `{shown(lines[int(number) - 1].strip())}`)"


def _word(value):
    """A name or a value as one word of a text."""
    if isinstance(value, Symbol):
        raise ValueError(f"a model that is built has a name for each symbol: {value} is none")
    word = str(value) if isinstance(value, (str, int)) and not isinstance(value, bool) else ""
    if not word or word.split() != [word]:
        raise ValueError(f"a name is one word or a whole number, not {shown(repr(value))}")
    return word


def _chunk_words(chunk):
    if not isinstance(chunk.slots, dict):
        raise TypeError(f"slots are given as a dict, not as {type(chunk.slots).__name__}")
    return [_word(chunk.type), *(_word(word) for pair in chunk.slots.items() for word in pair)]


def _fact_line(number, fact):
    if not isinstance(fact, Fact):
        raise TypeError(f"fact {number} is a {type(fact).__name__}, not a jv.Fact")
    activation = small_number(fact.activation, f"the activation of fact {number}")
    latency = small_number(fact.latency, f"the latency of fact {number}")
    return " ".join(["fact", *_chunk_words(fact), f"activation {activation} latency {latency}"])


def _buffer_line(name, members):
    if members is None:
        return f"buffer {_word(name)}"
    buffer = buffer_of(name, members)
    _check_opening(name, buffer)
    return " ".join(["buffer", _word(name), *_chunk_words(buffer)])


def _rule_lines(rule):
    if not isinstance(rule, Rule):
        raise TypeError(f"a rule is a jv.Rule, not a {type(rule).__name__}")
    for lines in rule.tests, rule.actions:
        if isinstance(lines, str) or not all(isinstance(line, str) and len(line.splitlines()) == 1 for line in lines):
            raise TypeError(f"tests and actions of rule '{shown(rule.name)}' are lists of lines, each a str")
    head = f"rule {_word(rule.name)} utility {decimal(_utility(rule.utility))}"
    return [head, *(f"  {line}" for line in rule.tests), "  ==>", *(f"  {line}" for line in rule.actions)]
