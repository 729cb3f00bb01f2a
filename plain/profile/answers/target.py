"""What a target gets from an edition."""

from dataclasses import dataclass

from plain.profile.answers.checks import checked_page, checked_reply
from plain.profile.answers.descriptions import description
from plain.profile.coverage_json.written import write_document
from plain.profile.feeds.collections import Collections
from plain.profile.refusals import STATUSES, Refused
from plain.profile.targets.pages import Description, Query
from plain.profile.targets.read import read_target


@dataclass(frozen=True)
class Answer:
    """The status of HTTP, and the text."""

    status: int
    text: str


def answer(target: bytes, edition: Collections) -> Answer:
    """The text that the target asks for, or the body of the first refusal that applies."""
    try:
        page = read_target(target)
    except Refused as refused:
        return refusal_answer(refused)
    return page_answer(page, edition)


def page_answer(page: Description | Query, edition: Collections) -> Answer:
    """The text of a page, or the body of the first refusal of the edition that applies."""
    try:
        return Answer(200, _text(page, edition))
    except Refused as refused:
        return refusal_answer(refused)


def refusal_answer(refused: Refused) -> Answer:
    """The body of a refusal."""
    return Answer(STATUSES[refused.name], refused.body())


def _text(page: Description | Query, edition: Collections) -> str:
    if isinstance(page, Description):
        checked_page(page, edition)
        return description(page, edition)
    return write_document(checked_reply(page, edition).document())
