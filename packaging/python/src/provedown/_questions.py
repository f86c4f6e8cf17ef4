"""References without a definition: what is asked of them, and texts that are read with the answers."""
from __future__ import annotations

from typing import Callable, Optional, Tuple, Union

from ._kinds import ANSWER, QUESTION, TITLE
from ._library import encoded, records_of
from ._records import BrokenLink, Records
from ._writer import Writer

#: What answers for a reference without a definition: a destination, or it with a title, or None.
AnswerBrokenLink = Callable[[BrokenLink], Union[None, str, Tuple[str, str]]]


def answered_records(text: bytes, bits: int, ask: Optional[AnswerBrokenLink]) -> bytes:
    """Returns the records of a text. Each question is asked where it is met, and the text read with its answer.

    What comes before a question depends on the answers before it alone. So after an answer that makes a link, the question
    has the same number in the records that are read next.
    """
    read = records_of(text, bits)
    if ask is None:
        return read
    answers = Writer(len(text))
    records = Records(text, read)
    number = records.kinds.find(QUESTION)
    while number >= 0:
        question, span = records.asked(number)
        answer = ask(question)
        _add_answer(answers, span, answer)
        if answer is not None:
            read = records_of(text, bits, answers.written())
            records = Records(text, read)
        number = records.kinds.find(QUESTION, number + 1)
    return read


def _add_answer(answers: Writer, span: Tuple[int, int], answer: Union[None, str, Tuple[str, str]]) -> None:
    if answer is None:
        return answers.add(ANSWER, 0, span=span)
    destination, title = (answer, "") if isinstance(answer, str) else answer
    answers.add(ANSWER, 1, encoded(destination), span=span, parts=bool(title))
    if title:
        answers.add(TITLE, 0, encoded(title))
