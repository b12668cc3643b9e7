"""Lists of calls, as text and as records, compared with what the oracle answers."""

from collections import Counter

import fresh
import odd_records
import records
from chance import Chance
from expect import Difference, expect
from full_session import FullSession
from ledger import INSPECTION_TABLES, VERDICTS, Preview
from ordered import check_order, lists_of_note, ordered_list, random_list
from tables import LENGTHS


def compare_answers(name, steps, got):
    """Line by line, so that the first difference names the script's line."""
    answers = got.decode("latin-1").split("\n")
    for step, answer in zip(steps, answers):
        shown = step.line[:4000].decode("latin-1")
        expect(f"{name}, line {step.number}: {shown}", step.answer, answer)
    expect(f"{name}: number of answer lines", len(steps), len(answers) - 1)
    expect(f"{name}: end of the answers", "", answers[-1])


def compare_list(built, name, made, script):
    """A list's verdicts by the exact difference and its searches by their promise, then its answers
    by the program, then the order of its colours. Returns how many pairs of spectra were in order
    and how many searches came to which end."""
    for steps, what in ((made.misjudged, "the exact difference"), (made.misled, "the promise")):
        if steps:
            raise Difference(f"{name}, line {steps[0].number}: {what} does not bear out "
                             f"{steps[0].answer}")
    compare_answers(name, made.steps, built.replay(script))
    return check_order(name, made.measured) + made.searched


def compare_lists(built, seed, count):
    """Returns the lists' steps by name, how often each verdict came where and how many of them were
    previews, and what compare_list found."""
    lists, verdicts, times, previews = {}, Counter(), Counter(), 0
    for index in range(count):
        name, made = f"list, seed {seed}, index {index}", fresh.call_list(seed * 1_000_003 + index)
        times += compare_list(built, name, made, made.script())
        lists[name] = made.steps
        verdicts.update(made.judged)
        previews += sum(isinstance(step.result, Preview) for step in made.steps)
    return lists, f"{told(verdicts)}; previews among them {previews}", times


def told(judged):
    """How often each verdict came, at each spacing and at each inspection table."""
    said = []
    for verdict in VERDICTS:
        at_spacing, at_number = Counter(), Counter()
        for (given, spacing, table_number), times in judged.items():
            at_spacing[spacing] += times * (given == verdict)
            at_number[table_number] += times * (given == verdict)
        spacings = ", ".join(f"{at_spacing[spacing]} at {spacing} nm" for spacing in LENGTHS)
        numbers = " ".join(str(at_number[number]) for number in INSPECTION_TABLES)
        said.append(f"{verdict} {spacings}, by table {numbers}")
    return "; ".join(said)


def compare_orders(built, seed, count):
    """The same trials in other orders end in the same tallies. Returns the lists' steps by name,
    and what compare_list found."""
    lists, times = {}, Counter()
    for index in range(count):
        name, ends = f"trials in orders, seed {seed}, index {index}", []
        for place, made in enumerate(fresh.reordered(seed * 1_000_003 + index)):
            times += compare_list(built, f"{name}, order {place}", made, made.script())
            lists[f"{name}, order {place}"] = made.steps
            ends.append(made.steps[-1].answer)
            expect(f"{name}, order {place}: the report", ends[0], ends[-1])
    return lists, times


def compare_ordered(built, seed, count):
    """Lists of spectra in order. Returns their steps by name, and what compare_list found."""
    given = list(lists_of_note())
    given += [(f"spectra in order, seed {seed}, index {index}",
               *random_list(seed * 1_000_003 + index)) for index in range(count)]
    lists, times = {}, Counter()
    for name, opened, spectra in given:
        made = ordered_list(opened, spectra)
        times += compare_list(built, name, made, made.script())
        lists[name] = made.steps
    return lists, times


def compare_runs(built, seed, lists):
    """The same lists, as records, are answered as `replay` answered them; odd records as the
    oracle has it. Returns how many calls were answered."""
    chance = Chance(seed)
    runs = {name: records.recorded(chance, steps) for name, steps in lists.items()}
    odd = list(odd_records.odd_runs(chance, [run for run, _ in runs.values()]))
    results = built.lists([run for run, _ in runs.values()] + odd)
    for (name, (run, steps)), got in zip(runs.items(), results):
        compare_run(f"{name}, as records", run, steps, got)
    for index, (run, got) in enumerate(zip(odd, results[len(runs):])):
        name = f"odd records, seed {seed}, index {index}: {records.named(run)}"
        compare_buffer(name, records.answer(run), got)
    return sum(number for number, _ in results if number < records.REFUSAL)


def compare_run(name, run, steps, got):
    """As text, line by line; the buffer past the answers must be as it was lent."""
    number, left = got
    expect(f"{name}: the answer", len(steps), number)
    size = records.answers_size(run)
    for step, words in zip(steps, records.apart(left[:size])):
        expect(f"{name}, line {step.number}", step.answer, records.text(words))
        if step.result is not None:
            kind = type(records.result_of(words)[0])
            expect(f"{name}, line {step.number}: the kind of answer", type(step.result), kind)
    expect(f"{name}: past the answers", run.lent[size:].hex(), left[size:].hex())


def compare_buffer(name, want, got):
    """As words, call by call; what follows the answers is in it."""
    expect(f"{name}; the answer", want[0], got[0])
    for place, (words, found) in enumerate(zip(*(records.apart(left) for _, left in (want, got)))):
        expect(f"{name}; call {place}", words, found)


def compare_full_sessions(built):
    """One as text and one as records, each with another inspection table full."""
    compare_full_text(built, FullSession(8, 5))
    compare_full_records(built, FullSession(1, 10))


def compare_full_text(built, session):
    lines, expected = zip(*session.said())
    answers = built.replay(b"\n".join([*lines, b""])).decode("latin-1").split("\n")
    compare_lines("full session", [*expected, ""], answers)


def compare_full_records(built, session):
    head, tail = ([line for line, _ in said] for said in (session.head, session.tail))
    run = records.repeated(Chance(session.times), head, session.times, tail)
    lines, expected = zip(*session.said())
    number, left = built.lists([run])[0]
    expect("full session as records: the answer", len(expected), number)
    compare_lines("full session as records", expected, records.texts(left))
    kinds = {b"trial": records.TRIED, b"preview": records.PREVIEWED}
    for line, answer, words in zip(lines, expected, records.apart(left)):
        if answer.startswith(VERDICTS):
            call = line.split(b" ")[0]
            expect(f"full session as records: the kind of a {call}", kinds[call], words[0])


def compare_lines(name, expected, answers):
    for number, (want, got) in enumerate(zip(expected, answers), 1):
        expect(f"{name}, line {number}", want, got)
    expect(f"{name}: number of answers", len(expected), len(answers))
