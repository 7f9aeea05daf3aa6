"""Lifecycles of buckets: rules by which objects go once they are old, and uploads that nobody completes. What the rules say, and when, is as
https://docs.aws.amazon.com/AmazonS3/latest/userguide/intro-lifecycle-rules.html has it, as far as they are taken here."""

import re
import secrets
from collections.abc import Callable, Sequence
from dataclasses import dataclass
from datetime import datetime, timedelta, timezone

from .errors import S3Error
from .markup import Element, document, element, many
from .places import TAG, Object
from .requests import iso

DAY = 86_400_000  # milliseconds
MOST_RULES, LONGEST_ID, MOST_DAYS, MOST_NEWER = 1_000, 255, 2**31 - 1, 100
# An action, or a filter, that is not here is told 501: a rule does all that it says, or is not taken.
ELEMENTS = {
    "LifecycleConfiguration": {"Rule"},
    "Rule": {"ID", "Status", "Filter", "Prefix", "Expiration", "NoncurrentVersionExpiration", "AbortIncompleteMultipartUpload"},
    "Filter": {"Prefix", "Tag", "ObjectSizeGreaterThan", "ObjectSizeLessThan", "And"},
    "And": {"Prefix", "Tag", "ObjectSizeGreaterThan", "ObjectSizeLessThan"},
    "Tag": {"Key", "Value"},
    "Expiration": {"Days", "Date", "ExpiredObjectDeleteMarker"},
    "NoncurrentVersionExpiration": {"NoncurrentDays", "NewerNoncurrentVersions"},
    "AbortIncompleteMultipartUpload": {"DaysAfterInitiation"},
}


@dataclass(frozen=True)
class Rule:
    """One rule. Times are milliseconds since the epoch, sizes bytes."""

    id: str
    is_enabled: bool
    prefix: str = ""
    tags: tuple[tuple[str, str], ...] = ()
    above: int | None = None
    below: int | None = None
    days: int | None = None
    date: int | None = None
    days_of_uploads: int | None = None
    days_of_older: int | None = None  # versions that are not the latest
    newer: int = 0  # so many of these stay, the newest
    is_of_markers: bool = False  # markers that are the only version

    @property
    def has_objects_go(self) -> bool:
        return self.days is not None or self.date is not None or self.days_of_older is not None or self.is_of_markers

    def is_for(self, found: Object) -> bool:
        """Whether the rule's filter names this object."""
        return (
            found.key.startswith(self.prefix)
            and all(found.values.get(TAG + key) == value for key, value in self.tags)
            and (self.above is None or found.size > self.above)
            and (self.below is None or found.size < self.below)
        )

    def has_expired(self, found: Object, now: int) -> bool:
        """Whether the object is to go. One that has no time, as another client put it, stays."""
        if not self.is_enabled or not found.time or not self.is_for(found):
            return False
        return (self.days is not None and now >= midnight_after(found.time, self.days)) or (self.date is not None and now >= self.date)

    def has_aged(self, found: Object, since: int, newer: int, now: int) -> bool:
        """Whether a version is to go that is not the latest since that time, and has so many newer ones that are not the latest either."""
        is_old = self.days_of_older is not None and since > 0 and now >= midnight_after(since, self.days_of_older)
        return self.is_enabled and is_old and newer >= self.newer and self.is_for(found)

    def is_over(self, found: Object, count: int) -> bool:
        """Whether a marker is to go, as its object has so many versions."""
        return self.is_enabled and self.is_of_markers and found.is_marker and count == 1 and self.is_for(found)

    def has_ended(self, key: str, begun: int, now: int) -> bool:
        """Whether an upload for this key, begun then, is to go."""
        return self.is_enabled and self.days_of_uploads is not None and begun > 0 and key.startswith(self.prefix) and now >= midnight_after(begun, self.days_of_uploads)

    def text(self) -> str:
        """The rule as XML."""
        limits = [element(name, size) for name, size in (("ObjectSizeGreaterThan", self.above), ("ObjectSizeLessThan", self.below)) if size is not None]
        terms = [element("Prefix", self.prefix)] if self.prefix else []
        terms += [many("Tag", element("Key", key), element("Value", value)) for key, value in self.tags] + limits
        chosen = many("And", *terms) if len(terms) > 1 else "".join(terms) or element("Prefix", "")
        return many(
            "Rule",
            element("ID", self.id),
            many("Filter", chosen),
            element("Status", "Enabled" if self.is_enabled else "Disabled"),
            many("Expiration", element("Days", self.days)) if self.days is not None else None,
            many("Expiration", element("Date", iso(self.date))) if self.date is not None else None,
            many("Expiration", element("ExpiredObjectDeleteMarker", "true")) if self.is_of_markers else None,
            many(
                "NoncurrentVersionExpiration",
                element("NoncurrentDays", self.days_of_older),
                element("NewerNoncurrentVersions", self.newer) if self.newer else None,
            )
            if self.days_of_older is not None
            else None,
            many("AbortIncompleteMultipartUpload", element("DaysAfterInitiation", self.days_of_uploads)) if self.days_of_uploads is not None else None,
        )


def midnight_after(time: int, days: int) -> int:
    """The first midnight in UTC behind so many days."""
    return ((time + days * DAY) // DAY + 1) * DAY


def document_of(rules: Sequence[Rule]) -> bytes:
    return document("LifecycleConfiguration", *(rule.text() for rule in rules))


def rules_of(root: Element) -> list[Rule]:
    """The rules of a request's XML. 400 InvalidArgument, InvalidRequest, MalformedXML."""
    rules = [rule_of(each) for each in root.all("Rule")]
    if not 1 <= len(rules) <= MOST_RULES:
        raise S3Error("MalformedXML", f"A lifecycle has 1 to {MOST_RULES:,} rules.")
    if len({rule.id for rule in rules}) < len(rules):
        raise S3Error("InvalidArgument", "Two rules have the same ID.")
    return rules


def one_of(found: Element, name: str) -> Element | None:
    """The element of this name; None where there is none. 400 MalformedXML where there are several."""
    each = found.all(name)
    if len(each) > 1:
        raise S3Error("MalformedXML", f"{found.name} has at most one {name}.")
    return each[0] if each else None


def text_of(found: Element, name: str) -> str | None:
    each = one_of(found, name)
    return each.text if each else None


def rule_of(found: Element) -> Rule:
    name = text_of(found, "ID") or secrets.token_hex(16)
    if len(name) > LONGEST_ID:
        raise S3Error("InvalidArgument", f"The ID of a rule has at most {LONGEST_ID} letters.")
    status = (text_of(found, "Status") or "").strip()
    if status not in ("Enabled", "Disabled"):
        raise S3Error("MalformedXML", "The Status of a rule is Enabled or Disabled.")
    chosen = one_of(found, "Filter")
    if (chosen is None) == (one_of(found, "Prefix") is None):
        raise S3Error("MalformedXML", "A rule has a Filter, or else a Prefix.")
    rule = filtered(chosen if chosen is not None else found, name, status == "Enabled", is_filter=chosen is not None)
    expiration, uploads, older = (one_of(found, each) for each in ("Expiration", "AbortIncompleteMultipartUpload", "NoncurrentVersionExpiration"))
    if expiration is None and uploads is None and older is None:
        raise S3Error("InvalidRequest", "A rule has at least one action.")
    days, date, marker = (text_of(expiration, each) for each in ("Days", "Date", "ExpiredObjectDeleteMarker")) if expiration is not None else (None, None, None)
    if marker is not None and marker.strip() not in ("true", "false"):
        raise S3Error("MalformedXML", "ExpiredObjectDeleteMarker is true or false.")
    is_of_markers = marker is not None and marker.strip() == "true"
    if expiration is not None and [days is not None, date is not None, is_of_markers].count(True) != 1:
        raise S3Error("MalformedXML", "Expiration has Days, or a Date, or ExpiredObjectDeleteMarker.")
    if is_of_markers and rule.tags:
        raise S3Error("InvalidRequest", "Markers have no tags.")
    newer = text_of(older, "NewerNoncurrentVersions") if older is not None else None
    if newer is not None and not number_in(newer, MOST_NEWER):
        raise S3Error("InvalidArgument", f"NewerNoncurrentVersions is a number from 1 to {MOST_NEWER}.")
    if uploads is not None and (rule.tags or rule.above is not None or rule.below is not None):
        raise S3Error("InvalidRequest", "Uploads have no tags and no size: AbortIncompleteMultipartUpload takes a prefix alone.")
    return Rule(
        rule.id, rule.is_enabled, rule.prefix, rule.tags, rule.above, rule.below,
        days_of(days, "Days") if days is not None else None,
        date_of(date) if date is not None else None,
        days_of(text_of(uploads, "DaysAfterInitiation") or "", "DaysAfterInitiation") if uploads is not None else None,
        days_of(text_of(older, "NoncurrentDays") or "", "NoncurrentDays") if older is not None else None,
        number_in(newer or "0", MOST_NEWER) or 0,
        is_of_markers,
    )  # fmt: skip


def filtered(found: Element, name: str, is_enabled: bool, is_filter: bool) -> Rule:
    """A rule with this filter, and no action yet. 400 InvalidArgument, MalformedXML."""
    terms = found
    if is_filter:
        both = one_of(found, "And")
        if both is not None and len(found.inner) > 1 or both is None and len(found.inner) > 1:
            raise S3Error("MalformedXML", "A Filter has one condition, or several in And.")
        terms = both if both is not None else found
    pairs = [(text_of(tag, "Key") or "", text_of(tag, "Value") or "") for tag in terms.all("Tag")]
    if not all(key for key, _ in pairs) or len(dict(pairs)) < len(pairs):
        raise S3Error("InvalidArgument", "The tags of a filter have different keys, none of them empty.")
    above, below = (size_of(terms, each) for each in ("ObjectSizeGreaterThan", "ObjectSizeLessThan"))
    if above is not None and below is not None and below <= above + 1:
        raise S3Error("InvalidRequest", "No size is above ObjectSizeGreaterThan and below ObjectSizeLessThan.")
    return Rule(name, is_enabled, text_of(terms, "Prefix") or "", tuple(pairs), above, below)


def number_in(text: str, most: int) -> int | None:
    return int(text) if re.fullmatch(r"[0-9]{1,19}", text.strip(), re.ASCII) and int(text) <= most else None


def size_of(found: Element, name: str) -> int | None:
    text = text_of(found, name)
    if text is None:
        return None
    size = number_in(text, 2**63 - 1)
    if size is None:
        raise S3Error("InvalidArgument", f"{name} is a number of bytes.")
    return size


def days_of(text: str, name: str) -> int:
    days = number_in(text, MOST_DAYS)
    if not days:
        raise S3Error("InvalidArgument", f"{name} is a number of days, at least 1.")
    return days


def date_of(text: str) -> int:
    try:
        found = datetime.fromisoformat(text.strip())
        found = found.replace(tzinfo=timezone.utc) if found.tzinfo is None else found.astimezone(timezone.utc)
        milliseconds = (found - datetime(1970, 1, 1, tzinfo=timezone.utc)) // timedelta(milliseconds=1)
    except (ValueError, OverflowError):
        raise S3Error("InvalidArgument", "The Date of an Expiration is a day, as 2027-01-31T00:00:00Z.") from None
    if milliseconds % DAY or milliseconds < 0:
        raise S3Error("InvalidArgument", "The Date of an Expiration is at midnight in UTC.")
    return milliseconds
