"""The first byte of each request and reply, and of each question and of what is told, by the names that the site's own code gives them."""

from enum import IntEnum

__all__ = ["AnswerCode", "QuestionCode", "ReplyCode", "RequestCode"]


class RequestCode(IntEnum):
    """The codes of requests, as `crates/wire_talk/src/request_codes.rt` has them."""
    OPEN = 1
    BEGIN = 2
    GET = 3
    PUT = 4
    DELETE = 5
    COMMIT = 6
    ABORT = 7
    BEGIN_MERGE = 8
    FORK_POINTS = 9
    CONFLICTS = 10
    GET_FOR = 11
    CEILING = 12
    RAISE = 13
    RAISE_AUTO = 14
    TIDY = 15
    STAT = 16
    SHOW = 17
    LEAVES = 18
    PULL = 19
    DELIVER = 20
    CLOSE = 21
    SETTLE = 22


class ReplyCode(IntEnum):
    """The codes of replies, as `crates/wire_talk/src/reply_codes.rt` has them."""
    OPENED = 1
    BEGUN = 2
    MERGING = 3
    VALUE = 4
    DELETED = 5
    ABSENT = 6
    DONE = 7
    COMMITTED = 8
    ENDED = 9
    STATES = 10
    KEYS = 11
    RAISED = 12
    TIDIED = 13
    STAT = 14
    SHOWN = 15
    BATCH = 16
    APPLIED = 17
    KNOWN = 18
    EARLY = 19
    CLOSED = 20
    REFUSED = 21
    NO_MEMORY = 22


class QuestionCode(IntEnum):
    """The codes of questions, as `crates/plain_questions/src/question_codes.rt` has them."""
    AT = 64
    KEYS = 65
    SCAN = 66
    RECORD = 67
    BASE = 68
    SESSIONS = 69
    SITE = 70


class AnswerCode(IntEnum):
    """The codes of what is told, as `crates/plain_questions/src/answer_codes.rt` has them: each is that of its question."""
    READ = 64
    KEYS = 65
    ENTRIES = 66
    RECORD = 67
    FORK_READS = 68
    SESSIONS = 69
    SITE = 70
