"""What each merge rule gives, row by row, taken by hand from `docs/RULES.md` and `crates/join_rules/specs/Values.antt`."""

from typing import NamedTuple, Optional, Union

#: a base that isn't known, since the sides parted at two states, which read the key differently, or the same
UNKNOWN, CROSSED = "unknown", "crossed"
#: a value that no rule gives
REFUSED = "refused"
#: nothing was written; it was deleted
ABSENT, GONE = "absent", None

MOST, LEAST = "9223372036854775807", "-9223372036854775808"
LONG = ",".join("%04d" % number for number in range(500))       # 2,499 bytes
WIDE = ",".join("%04d" % number for number in range(500, 900))  # 1,999 bytes


class Row(NamedTuple):
    """A rule, what stood where the sides parted, what each side wrote (None: a deletion), of which the second has the greater writer, and
    the value."""
    rule: str
    base: Optional[str]
    one: Optional[str]
    other: Optional[str]
    value: Union[str, None]


ROWS = [Row(*row) for row in [
    # the greater writer, whatever it wrote
    ("last", "x", "one", "other", "other"), ("last", ABSENT, "same", "same", "same"), ("last", "x", "one", None, None),
    ("last", "x", None, "other", "other"), ("last", UNKNOWN, "one", "other", "other"), ("last", "x", "", "", ""),
    # both changes
    ("count", "10", "13", "8", "11"), ("count", ABSENT, "3", "4", "7"), ("count", GONE, "3", "4", "7"), ("count", "1", "2", "2", "3"),
    ("count", "5", None, "6", "1"), ("count", "5", None, None, "-5"), ("count", ABSENT, None, "0", "0"), ("count", "-3", "-5", "-4", "-6"),
    ("count", "1", MOST, "1", MOST), ("count", "0", LEAST, "0", LEAST), ("count", "0", MOST, "1", REFUSED), ("count", "1", LEAST, "0", REFUSED),
    ("count", LEAST, MOST, MOST, REFUSED), ("count", UNKNOWN, "1", "2", REFUSED),
    ("count", CROSSED, "1", "2", REFUSED), ("set3", CROSSED, "a", "b", REFUSED), ("set", CROSSED, "a", "b", "a,b"), ("last", CROSSED, "1", "2", "2"),
    # what is no number: a leading zero, a sign but a minus before what is below 0, anything else, too much
    ("count", "0", "007", "1", REFUSED), ("count", "0", "1", "00", REFUSED), ("count", "0", "-0", "1", REFUSED), ("count", "0", "+1", "1", REFUSED),
    ("count", "0", "-01", "1", REFUSED), ("count", "0", "", "1", REFUSED), ("count", "0", " 1", "1", REFUSED), ("count", "0", "1\n", "1", REFUSED),
    ("count", "0", "1.0", "1", REFUSED), ("count", "0", "1_0", "1", REFUSED), ("count", "0", "\u0661", "1", REFUSED), ("count", "x", "1", "1", REFUSED),
    ("count", "0", "9223372036854775808", "0", REFUSED), ("count", "0", "-9223372036854775809", "0", REFUSED),
    ("count", "9223372036854775808", "1", "0", REFUSED),
    # the union
    ("set", "milk", "bread,milk", "eggs,milk", "bread,eggs,milk"), ("set", "a,b", "a", "b", "a,b"), ("set", "a", "", "", ""), ("set", "a", None, None, ""),
    ("set", "a", None, "b", "b"), ("set", UNKNOWN, "a", "b", "a,b"), ("set", ABSENT, "B,a", "A,b", "A,B,a,b"), ("set", ABSENT, "a", "a", "a"),
    ("set", ABSENT, "a,aa", "a b", "a,a b,aa"), ("set", "b,a", "a", "b", "a,b"), ("set", ABSENT, LONG, "", LONG),
    # what is no set: items that don't ascend, the same twice, an empty one; more than a value holds
    ("set", ABSENT, "milk,bread", "eggs", REFUSED), ("set", ABSENT, "milk,bread", "milk,bread", REFUSED), ("set", ABSENT, "a", "b,b", REFUSED),
    ("set", ABSENT, "a,,b", "a", REFUSED), ("set", ABSENT, "a,", "a", REFUSED), ("set", ABSENT, ",a", "a", REFUSED), ("set", ABSENT, ",", "a", REFUSED),
    ("set", ABSENT, LONG, WIDE, REFUSED),
    # the union without what a side struck
    ("set3", "call,pay,write", "call,sleep,write", "pay,write", "sleep,write"), ("set3", "a,b", "a", "b", ""), ("set3", "a", "a,b", "a,c", "a,b,c"),
    ("set3", ABSENT, "a", "b", "a,b"), ("set3", GONE, "a", "b", "a,b"), ("set3", "", "a", "b", "a,b"), ("set3", "a,b", None, "a,b,c", "c"),
    ("set3", "a", None, None, ""), ("set3", "a,b", "a,b", "a,b", "a,b"), ("set3", LONG, "", WIDE, WIDE),
    ("set3", UNKNOWN, "a", "b", REFUSED), ("set3", "b,a", "a", "b", REFUSED), ("set3", "a,,b", "a", "b", REFUSED), ("set3", "a", "b,a", "a,b", REFUSED),
    ("set3", ABSENT, "a", "a,a", REFUSED), ("set3", ABSENT, LONG, WIDE, REFUSED),
    # never
    ("refuse", "x", "one", "other", REFUSED), ("refuse", "x", "same", "same", REFUSED), ("refuse", ABSENT, None, None, REFUSED),
]]

#: texts that are rules, with the rule of some keys
TEXTS = [
    ("cart/=set,visits/=count,profile/=last,price/=refuse", {"cart/1": "set", "visits/": "count", "visit": "refuse", "cart": "refuse"}),
    ("n=count,note=set,=last", {"note.1": "set", "n": "count", "no": "count", "x": "last"}),
    ("=set3", {"x": "set3"}), ("a=last,ab=refuse", {"ab": "refuse", "aa": "last"}), ("~!=set", {"~!": "set"}),
    ("p" * 64 + "=set", {"p" * 65: "set", "p" * 63: "refuse"}), (",".join("%02d=last" % number for number in range(16)), {"15": "last"}),
]
#: texts that are none
NO_TEXTS = [
    "", "cart/", "cart/=", "cart/=best", "cart/=set,", ",cart/=set", "cart/=set,,n=count", "cart/=set,cart/=last", "a=b=set", "a==set", "a b=set",
    "\u00e9=set", "a\n=set", "=SET", "= set", "p" * 65 + "=set", ",".join("%02d=last" % number for number in range(17)), "a=text", "a=union_of",
]
