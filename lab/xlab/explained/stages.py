"""What the counts of the forms `nested` and `harts` keep silent about: refusals, faults, requests that wait."""

from xlab import formats
from xlab.formrows import Row


def explain(row: Row, trace: str) -> list[str]:
    """What a user may want to know of a report that ended well."""
    form = str(row["name"])
    if not row["accesses"]:
        return [f"no access was made: {trace} holds no record"]
    causes = formats.CAUSES_OF[form]
    said = [f"{count} commands refused, cause {cause}: {causes[cause]}"
            for cause, count in enumerate(row["refused"], 1) if count]  # fmt: skip
    return said + (_guest(row) if form == "nested" else _harts(row))


def _guest(row: Row) -> list[str]:
    said = []
    if row["guestfaults"]:
        said.append(
            f"{row['guestfaults']} guest-page faults: gmap has no page there, or one that does not allow the access; "
            "the guest's nodes stand at guest pages BASE, BASE + 1 and so on, and must be mapped by gmap too, readable"
        )
    if row["pagefaults"]:
        said.append(
            f"{row['pagefaults']} page faults: vmap has no page there, one that does not allow the access, "
            "or the address is not canonical in Sv39"
        )
    return said


def _harts(row: Row) -> list[str]:
    said = []
    if row["unmapped"]:
        said.append(f"{row['unmapped']} accesses found no page: map, in the hart's space, comes before run")
    if row["denied"]:
        said.append(f"{row['denied']} accesses were denied: PERM of their page, as the hart knows it, does not allow them")
    if row["notcanonical"]:
        said.append(f"{row['notcanonical']} addresses are not canonical in sv39")
    if row["waiting"]:
        said.append(
            f"{row['waiting']} requests wait and {row['held']} frames are held back: a hart is served by what it knows "
            "until `take H` has taken them"
        )
    return said
